# The bytes of a client's session: a login among 2,000 users and 400 battles, and so many LINES behind it, of chat, statuses and
# battles that come and go.
function user(k) { return "user" k }
function opened(id) {
    print "BATTLEOPENED " id " 0 0 " user(id) " 10.0.0.1 8452 16 0 0 123 Spring\t104.0\tComet Catcher\tbattle " id "\tBA 9.46"
}
BEGIN {
    srand(1)
    print "TASSERVER 0.38 * 8201 0"
    print "ACCEPTED user0"
    for (k = 0; k < 2000; k++) print "ADDUSER " user(k) " ?? 2400 " k
    for (id = 1; id <= 400; id++) opened(id)
    print "LOGININFOEND"
    print "JOIN main"
    for (k = 0; k < 2000; k++) print "JOINED main " user(k)
    for (n = 0; n < lines; n++) {
        way = int(rand() * 100)
        who = user(int(rand() * 2000))
        id = 1 + int(rand() * 400)
        if (way < 50) print "SAID main " who " the quick brown fox jumps over the lazy dog"
        else if (way < 90) print "CLIENTSTATUS " who " " int(rand() * 4)
        else if (way < 93) { print "JOINEDBATTLE " id " " who; print "LEFTBATTLE " id " " who; n++ }
        else if (way < 97) print "UPDATEBATTLEINFO " id " " int(rand() * 8) " 0 123 Comet Catcher"
        else { print "BATTLECLOSED " id; opened(id); n++ }
    }
}
