// load MODE PORT PID ... : clients of a lobby at 127.0.0.1:PORT, whose process is PID. It compares every byte that comes back,
// and prints one line of names and figures. The processor time is that of the server over the measured time alone.
//
//   load fanout PORT PID CLIENTS WINDOW SECONDS [QUIET [BYTES]]   the first client speaks in a channel of all, with WINDOW lines unanswered
//   load ping PORT PID CLIENTS DEPTH SECONDS [QUIET]              each client keeps DEPTH times PING unanswered
//   load pace PORT PID CLIENTS RATE SECONDS                       the clients in turn send PING, RATE times a second in all
//   load logins PORT PID CLIENTS one|all                          greeted clients log in, one after another or all at once
//   load crowd PORT PID CLIENTS talk|channels|reset|units COUNT [BUSY]  so many of them, all if left out, do much at once: they say COUNT
//                                                                 lines to a channel of all, join and leave COUNT channels, found COUNT battles
//                                                                 of eight and reset their connections, or found a battle each and send COUNT
//                                                                 DISABLEUNITS of 2,720 words, which are refused. Two more are quiet: one sends
//                                                                 PING, and one talks in a channel of its own
//   load memory PORT PID CLIENTS                                  what the server holds: before, with greeted clients, with members of a
//                                                                 channel, and behind ten PINGs of one of them
//
// Clients log in as u0001, u0002 and so on. QUIET more are greeted, and do nothing. BYTES has a delivered line, 60 if left out. gcc -O2.
#include "common.h"
#include <dirent.h>
#include <poll.h>
#include <sys/wait.h>

#define CHANNEL "load"
#define GREETING "TASSERVER 0.38 * 8201 0"

enum {
    SECONDS_MOST = 60,     // of a mode
    CLIENTS_MOST = 4000,
    LINE_MOST = 1024,      // bytes of a line of a login or a JOIN
    READ_BYTES = 65536,
    READY_MOST = 1024,
    WINDOW_MOST = 4096,
    CYCLE_BYTES = 1 << 20, // the lines that are spoken have so many bytes at most, and then the first comes again
    SAID_LEAST = 60,       // bytes of a delivered line with its LF
    SAID_MOST = 8000,
    SAID_FRONT = 16,       // the bytes of a delivered line before its text
    SAY_FRONT = 9,         // the same of the line as it is spoken, which does not name the speaker
    UNITS = 2720,
    WAITS_MOST = 100000,
    RATE_MOST = 100000,
};

struct client {
    int socket;
    unsigned number;         // u0001 is number 1
    char line[LINE_MOST];    // a line that has not come to its end
    size_t held;
    bool is_greeted, is_accepted, is_in, is_joined;
    unsigned users;          // how many it was told of
    unsigned members;
    unsigned char *told;     // by number, whether it was told of this user
    uint64_t bytes;          // that came since the measured time began
    struct pings pings;
};

static struct client *clients;
static unsigned client_count;
static unsigned quiet_count; // who stand behind the others
static int poll_set;
static int server;
static double deadline;
static bool is_in_order;     // whether users log in one after another, in the order of their numbers
static unsigned greeted_count, in_count, told_count, settled_count;
static size_t said_bytes, say_bytes, cycle; // of a delivered line, of the line as it is spoken, and how many different ones there are
static char said[CYCLE_BYTES], say[CYCLE_BYTES];
static struct waits waits;
static uint64_t received; // all bytes to all clients
static void (*take)(struct client *, const char *, size_t);

// The server's memory in kB that is in use now.
static unsigned long resident(void) {
    char path[64], text[256];
    unsigned long size = 0;
    snprintf(path, sizeof path, "/proc/%d/status", server);
    FILE *file = fopen(path, "r");
    if (file == NULL) fail("no server %d", server);
    while (fgets(text, sizeof text, file) != NULL)
        if (sscanf(text, "VmRSS: %lu kB", &size) == 1) break;
    fclose(file);
    if (size == 0) fail("cannot read %s", path);
    return size;
}

// Reads the number of the user at the start of a text, and gives what stands behind the name.
static const char *read_name(const char *text, unsigned *number) {
    if (text[0] != 'u') return NULL;
    *number = 0;
    for (int place = 1; place <= 4; place++) {
        if (text[place] < '0' || text[place] > '9') return NULL;
        *number = *number * 10 + (unsigned)(text[place] - '0');
    }
    return *number >= 1 && *number <= client_count ? text + 5 : NULL;
}

// What stands behind these words at the start of a line.
static const char *behind(const char *line, const char *words) {
    size_t length = strlen(words);
    return strncmp(line, words, length) == 0 ? line + length : NULL;
}

static void note_if_settled(const struct client *client) {
    if (client->users == client_count && client->members == client_count) settled_count++;
}

// Each user is told of once, and in the order of names where they log in so. In a burst they always come so.
static void note_user(struct client *client, const char *rest) {
    unsigned number;
    const char *behind_name = read_name(rest, &number);
    char expected[32];
    if (behind_name == NULL || client->told[number]) fail("ADDUSER %s at client %u", rest, client->number);
    snprintf(expected, sizeof expected, " ?? 0 %u", number);
    if (strcmp(behind_name, expected) != 0) fail("ADDUSER %s at client %u", rest, client->number);
    client->told[number] = 1;
    client->users++;
    if (is_in_order && number != client->users) fail("ADDUSER %s out of order at client %u", rest, client->number);
    if (client->users == client_count) told_count++;
    note_if_settled(client);
}

// Members join in the order of their numbers, and are told in that order.
static const char *note_member(struct client *client, const char *name) {
    unsigned number;
    const char *rest = read_name(name, &number);
    if (rest == NULL || number != client->members + 1) fail("member %s out of order at client %u", name, client->number);
    client->members++;
    note_if_settled(client);
    return rest;
}

static void note_members(struct client *client, const char *rest) {
    int names = 0;
    while (*rest != '\0') {
        if (*rest != ' ') fail("CLIENTS %s", rest);
        rest = note_member(client, rest + 1);
        names++;
    }
    if (names < 1 || names > 32 || !client->is_joined) fail("CLIENTS with %d names at client %u", names, client->number);
}

static void note_once(const struct client *client, bool *mark, bool is_time, const char *line) {
    if (*mark || !is_time) fail("client %u did not wait for: %s", client->number, line);
    *mark = true;
}

// A line of a greeting, a login or a JOIN.
static void take_line(struct client *client, const char *line) {
    const char *rest;
    unsigned number;
    if ((rest = behind(line, "ADDUSER ")) && client->is_accepted) {
        note_user(client, rest);
    } else if ((rest = behind(line, "JOINED " CHANNEL " ")) && client->is_joined) {
        if (*note_member(client, rest) != '\0') fail("more behind: %s", line);
    } else if ((rest = behind(line, "CLIENTS " CHANNEL))) {
        note_members(client, rest);
    } else if (strcmp(line, "JOIN " CHANNEL) == 0) {
        note_once(client, &client->is_joined, client->is_in, line);
    } else if (strcmp(line, "LOGININFOEND") == 0) {
        note_once(client, &client->is_in, client->is_accepted && client->told[client->number], line);
        in_count++;
    } else if ((rest = behind(line, "ACCEPTED ")) && read_name(rest, &number) && number == client->number && rest[5] == '\0') {
        note_once(client, &client->is_accepted, client->is_greeted, line);
    } else if (strcmp(line, GREETING) == 0) {
        note_once(client, &client->is_greeted, true, line);
        greeted_count++;
    } else {
        fail("client %u did not expect: %s", client->number, line);
    }
}

static void take_lines(struct client *client, const char *bytes, size_t count) {
    for (size_t at = 0; at < count; at++) {
        if (client->held == LINE_MOST) fail("a line of client %u is too long", client->number);
        client->line[client->held++] = bytes[at];
        if (bytes[at] == '\n') {
            client->line[client->held - 1] = '\0';
            client->held = 0;
            take_line(client, client->line);
        }
    }
}

// Each member gets each line once and in order: its bytes are a stream that is known.
static void take_said(struct client *client, const char *bytes, size_t count) {
    while (count > 0) {
        size_t all = cycle * said_bytes, at = client->bytes % all;
        size_t piece = all - at < count ? all - at : count;
        if (memcmp(said + at, bytes, piece) != 0) fail("other lines than were said, behind byte %lu of client %u", client->bytes, client->number);
        client->bytes += piece;
        bytes += piece;
        count -= piece;
    }
}

static void take_answers(struct client *client, const char *bytes, size_t count) {
    take_pongs(&client->pings, bytes, count, &waits);
}

static void take_nothing(struct client *client, const char *bytes, size_t count) {
    fail("client %u did not expect: %.*s", client->number, (int)count, bytes);
}

// Waits so many milliseconds at most, and takes what has come.
static void pump(int milliseconds) {
    static char bytes[READ_BYTES];
    struct epoll_event ready[READY_MOST];
    if (now() > deadline) fail("no end in %d seconds: %u greeted, %u in, %u told of all, %u settled", SECONDS_MOST, greeted_count, in_count, told_count, settled_count);
    int count = epoll_wait(poll_set, ready, READY_MOST, milliseconds);
    for (int place = 0; place < count; place++) {
        struct client *client = ready[place].data.ptr;
        ssize_t length = read(client->socket, bytes, sizeof bytes);
        if (length > 0) received += (uint64_t)length, take(client, bytes, (size_t)length);
        else if (length == 0 || (errno != EAGAIN && errno != EINTR)) fail("client %u was closed", client->number);
    }
}

static void pump_until(const unsigned *count, unsigned wanted) {
    while (*count < wanted) pump(100);
}

// Nothing more comes.
static void expect_silence(void) {
    take = take_nothing;
    pump(20);
}

static void open_client(struct client *client, unsigned number, int port) {
    client->number = number;
    client->told = calloc(client_count + 1, 1);
    if (client->told == NULL) fail("no memory for client %u", number);
    make_pings(&client->pings);
    client->socket = connect_to(port);
    fcntl(client->socket, F_SETFL, O_NONBLOCK);
    struct epoll_event event = { .events = EPOLLIN, .data.ptr = client };
    if (epoll_ctl(poll_set, EPOLL_CTL_ADD, client->socket, &event) != 0) fail("epoll_ctl: %s", strerror(errno));
}

// Connects the clients, a hundred at a time, and waits for their greetings.
static void open_clients(int port) {
    take = take_lines;
    for (unsigned place = 0; place < client_count + quiet_count; place++) {
        open_client(&clients[place], place + 1, port);
        if (place % 100 == 99) pump_until(&greeted_count, place + 1);
    }
    pump_until(&greeted_count, client_count + quiet_count);
}

static void log_in(const struct client *client) {
    tell(client->socket, "LOGIN u%04u " PASSWORD " 0 127.0.0.1 load\n", client->number);
}

// Hears a client alone, until it is in. What others are told waits in their sockets meanwhile.
static void await_login(struct client *client) {
    char bytes[READ_BYTES];
    struct pollfd wanted = { .fd = client->socket, .events = POLLIN };
    while (!client->is_in) {
        if (now() > deadline) fail("client %u is not in", client->number);
        if (poll(&wanted, 1, 100) < 1) continue;
        ssize_t length = read(client->socket, bytes, sizeof bytes);
        if (length <= 0) fail("client %u was closed", client->number);
        received += (uint64_t)length;
        take(client, bytes, (size_t)length);
    }
}

// Logs all clients in, and waits until each is in.
static void log_all_in(bool one_after_another) {
    is_in_order = one_after_another;
    for (unsigned place = 0; place < client_count; place++) {
        log_in(&clients[place]);
        if (!one_after_another) continue;
        await_login(&clients[place]);
        if (place % 100 == 99) pump(0);
    }
    pump_until(&in_count, client_count);
}

// Has all clients join the channel, one after another, and waits until each knows of all.
static void join_all(void) {
    for (unsigned place = 0; place < client_count; place++) {
        tell(clients[place].socket, "JOIN " CHANNEL "\n");
        pump_until(&clients[place].members, place + 1);
    }
    pump_until(&settled_count, client_count);
}

static void make_lines(size_t bytes) {
    said_bytes = bytes;
    say_bytes = bytes - SAID_FRONT + SAY_FRONT;
    cycle = CYCLE_BYTES / bytes;
    for (size_t place = 0; place < cycle; place++) {
        char *line = said + place * said_bytes, *spoken = say + place * say_bytes, front[SAID_LEAST];
        int length = snprintf(front, sizeof front, "SAID " CHANNEL " u0001 %06zu a line for all who listen, ", place);
        memset(line, '.', said_bytes);
        memcpy(line, front, (size_t)length);
        line[said_bytes - 1] = '\n';
        memcpy(spoken, "SAY " CHANNEL " ", SAY_FRONT);
        memcpy(spoken + SAY_FRONT, line + SAID_FRONT, said_bytes - SAID_FRONT);
    }
}

// Speaks up to this line, as far as the socket takes it.
static void speak(const struct client *speaker, uint64_t *spoken, uint64_t lines) {
    size_t all = cycle * say_bytes;
    while (*spoken < lines * say_bytes) {
        size_t at = *spoken % all;
        uint64_t left = lines * say_bytes - *spoken;
        size_t piece = all - at < left ? all - at : (size_t)left;
        ssize_t length = write(speaker->socket, say + at, piece);
        if (length < 0 && errno == EAGAIN) return;
        if (length < 0) fail("the speaker cannot write: %s", strerror(errno));
        *spoken += (uint64_t)length;
    }
}

static bool have_all(uint64_t bytes) {
    for (unsigned place = 0; place < client_count; place++)
        if (clients[place].bytes < bytes) return false;
    return true;
}

static void run_fanout(uint64_t window, double seconds, size_t bytes) {
    const struct client *speaker = &clients[0];
    uint64_t spoken = 0, lines = window;
    log_all_in(true);
    join_all();
    make_lines(bytes);
    take = take_said;
    struct usage from = usage_of(server);
    while (now() < from.at + seconds) {
        lines = speaker->bytes / said_bytes + window;
        speak(speaker, &spoken, lines);
        pump(1);
    }
    lines = (spoken + say_bytes - 1) / say_bytes;
    do {
        speak(speaker, &spoken, lines);
        pump(1);
    } while (!have_all(lines * said_bytes));
    struct usage to = usage_of(server);
    expect_silence();
    printf("lines %lu", lines * client_count);
    print_usage(from, to);
}

// Awaits the answers to so many PINGs in all, and tells how long they took.
static void tell_answers(uint64_t asked, struct usage from) {
    while (waits.count < asked) pump(1);
    struct usage to = usage_of(server);
    expect_silence();
    printf("answers %lu median %.1f late %.1f", waits.count, wait_below(&waits, 0.5), wait_below(&waits, 0.99));
    print_usage(from, to);
}

static void run_ping(unsigned depth, double seconds) {
    take = take_answers;
    struct usage from = usage_of(server);
    uint64_t asked = 0;
    while (now() < from.at + seconds) {
        for (unsigned place = 0; place < client_count; place++) ask(&clients[place].pings, clients[place].socket, depth);
        pump(1);
    }
    for (unsigned place = 0; place < client_count; place++) asked += clients[place].pings.asked;
    tell_answers(asked, from);
}

static void run_pace(unsigned rate, double seconds) {
    take = take_answers;
    struct usage from = usage_of(server);
    uint64_t asked = 0;
    while (now() < from.at + seconds) {
        while ((double)asked < (now() - from.at) * rate) {
            struct client *client = &clients[asked++ % client_count];
            ask(&client->pings, client->socket, (unsigned)(client->pings.asked - client->pings.bytes / 5) + 1);
        }
        pump(1);
    }
    tell_answers(asked, from);
}

static void run_logins(const char *how) {
    struct usage from = usage_of(server);
    uint64_t before = received;
    log_all_in(strcmp(how, "one") == 0);
    struct usage to = usage_of(server);
    pump_until(&told_count, client_count);
    struct usage end = usage_of(server);
    expect_silence();
    printf("logins %u all_told %.4f bytes %lu", client_count, end.at - from.at, received - before);
    print_usage(from, to);
}

// ---- a crowd, and a quiet client beside

// What one who is quiet saw, in seconds.
struct quiet {
    double median, worst, worst_busy, sum;
    uint64_t answers;
};

// The seconds for which the server's threads ran so far: what a busy machine adds to a wait is not in them.
static double busy(void) {
    char path[96];
    double all = 0;
    snprintf(path, sizeof path, "/proc/%d/task", server);
    DIR *tasks = opendir(path);
    for (struct dirent *task; tasks != NULL && (task = readdir(tasks)) != NULL;) {
        unsigned long ran;
        snprintf(path, sizeof path, "/proc/%d/task/%.20s/schedstat", server, task->d_name);
        FILE *file = fopen(path, "r");
        if (file == NULL) continue;
        if (fscanf(file, "%lu", &ran) == 1) all += (double)ran / 1e9;
        fclose(file);
    }
    if (tasks != NULL) closedir(tasks);
    return all;
}

// Reads until a line begins as the answer does.
static void await_line(int socket, const char *answer) {
    static char bytes[READ_BYTES];
    static size_t begin, end;
    size_t wanted = strlen(answer), matched = 0;
    bool is_front = true;
    for (bool is_found = false;;) {
        if (begin == end) {
            ssize_t length = read(socket, bytes, sizeof bytes);
            if (length <= 0) _exit(1);
            begin = 0;
            end = (size_t)length;
        }
        char byte = bytes[begin++];
        if (byte == '\n' && is_found) return;
        is_front = is_front && byte == answer[matched];
        matched += is_front;
        if (byte == '\n') is_front = true, matched = 0;
        if (is_front && matched == wanted) is_found = true, is_front = false;
    }
}

static int compare_waits(const void *one, const void *other) {
    double difference = *(const double *)one - *(const double *)other;
    return (difference > 0) - (difference < 0);
}

// One who is quiet, a process of its own: it tells that it is here, says its line a millisecond after each answer, from the first byte that
// it is told by until the second, and then tells what it saw.
static void be_quiet(const struct client *client, const char *line, const char *answer, int told_by, int tell_to) {
    static double waits[WAITS_MOST];
    struct quiet seen = { 0 };
    struct pollfd end = { .fd = told_by, .events = POLLIN };
    char byte = 'h';
    // A connection is reset by its last holder alone.
    for (unsigned place = 0; place < client_count + quiet_count; place++)
        if (&clients[place] != client) close(clients[place].socket);
    fcntl(client->socket, F_SETFL, 0);
    if (write(tell_to, &byte, 1) != 1 || read(told_by, &byte, 1) != 1) _exit(1);
    while (poll(&end, 1, 1) == 0) {
        double ran = busy(), at = now();
        if (write(client->socket, line, strlen(line)) != (ssize_t)strlen(line)) _exit(1);
        await_line(client->socket, answer);
        double taken = now() - at, ran_more = busy() - ran;
        if (ran_more > seen.worst_busy) seen.worst_busy = ran_more;
        seen.sum += taken;
        if (seen.answers < WAITS_MOST) waits[seen.answers] = taken;
        seen.answers++;
        if (taken > seen.worst) seen.worst = taken;
    }
    size_t kept = seen.answers < WAITS_MOST ? seen.answers : WAITS_MOST;
    qsort(waits, kept, sizeof *waits, compare_waits);
    seen.median = kept > 0 ? waits[kept / 2] : 0;
    _exit(write(tell_to, &seen, sizeof seen) == sizeof seen ? 0 : 1);
}

// A process for one who is quiet, and what it is told by and tells by.
struct watcher {
    int go[2], end[2];
    pid_t process;
};

static void watch(struct watcher *watcher, const struct client *client, const char *line, const char *answer) {
    char here;
    if (pipe(watcher->go) != 0 || pipe(watcher->end) != 0) fail("no pipe");
    epoll_ctl(poll_set, EPOLL_CTL_DEL, client->socket, NULL);
    watcher->process = fork();
    if (watcher->process == 0) be_quiet(client, line, answer, watcher->go[0], watcher->end[1]);
    if (read(watcher->end[0], &here, 1) != 1) fail("no quiet client");
}

static void begin_watch(const struct watcher *watcher) {
    if (write(watcher->go[1], "g", 1) != 1) fail("no quiet client");
}

static struct quiet end_watch(const struct watcher *watcher) {
    struct quiet seen;
    if (write(watcher->go[1], "e", 1) != 1 || read(watcher->end[0], &seen, sizeof seen) != sizeof seen) fail("a quiet client ended");
    waitpid(watcher->process, NULL, 0);
    return seen;
}

static uint64_t crowd_bytes, crowd_lines;
static unsigned marks;

// Counts what comes. A line with an id answers one of the marks.
static void take_crowd(struct client *client, const char *bytes, size_t count) {
    crowd_bytes += count;
    for (size_t place = 0; place < count; place++) crowd_lines += bytes[place] == '\n';
    if (memchr(bytes, '#', count) != NULL) marks++;
    client->bytes += count;
}

// A DISABLEUNITS of as many distinct words as a line holds, which are more than a battle takes.
static size_t write_units(char *text) {
    static const char letters[] = "abcdefghijklmnopqrstuvwxyzABCDEFGHIJKLMNOPQRSTUVWXYZ0123456789";
    size_t length = (size_t)sprintf(text, "DISABLEUNITS");
    for (unsigned word = 0; word < UNITS; word++) length += (size_t)sprintf(text + length, " %c%c", letters[word / 62], letters[word % 62]);
    return length + (size_t)sprintf(text + length, "\n");
}

// What one of the crowd does at once. Its last line asks for a mark.
static size_t write_deed(char *text, const char *deed, unsigned count) {
    size_t length = 0;
    for (unsigned place = 0; place < count; place++)
        if (strcmp(deed, "units") == 0) length += write_units(text + length);
        else if (strcmp(deed, "talk") == 0) length += (size_t)sprintf(text + length, "SAY " CHANNEL " %06u a line for all who listen, and ........\n", place);
        else length += (size_t)sprintf(text + length, "JOIN c%u\n", place);
    for (unsigned place = 0; strcmp(deed, "channels") == 0 && place < count; place++) length += (size_t)sprintf(text + length, "LEAVE c%u\n", place);
    return length + (size_t)sprintf(text + length, "#1 PING\n");
}

static void reset(struct client *client) {
    struct linger at_once = { .l_onoff = 1, .l_linger = 0 };
    setsockopt(client->socket, SOL_SOCKET, SO_LINGER, &at_once, sizeof at_once);
    close(client->socket);
    client->socket = -1;
}

// Opens so many battles of so many members, the first of which is the founder.
static void open_battles(unsigned count, unsigned members) {
    for (unsigned place = 0; place < count; place++) {
        tell(clients[members * place].socket, "OPENBATTLE 0 0 * 8452 8 0 0 0 Spring\t105\tmap\ttitle\tgame\n");
        pump(5);
        for (unsigned member = 1; member < members; member++) tell(clients[members * place + member].socket, "JOINBATTLE %u\n", place + 1);
        pump(5);
    }
}

// Sends all of it, as the socket takes it.
static void tell_all(const struct client *client, const char *text, size_t length) {
    while (length > 0) {
        ssize_t written = write(client->socket, text, length);
        if (written < 0 && errno != EAGAIN) fail("client %u cannot write", client->number);
        if (written < 0) pump(1);
        text += written < 0 ? 0 : written;
        length -= written < 0 ? 0 : (size_t)written;
    }
}

static void run_crowd(const char *deed, unsigned count, unsigned busy_count) {
    struct watcher asker, talker;
    struct client *quiet = &clients[client_count];
    bool resets = strcmp(deed, "reset") == 0;
    log_all_in(true);
    if (!resets) join_all();
    take = take_crowd;
    if (resets) open_battles(count, 8);
    if (strcmp(deed, "units") == 0) open_battles(client_count, 1);
    log_in(&quiet[1]);
    for (unsigned round = 0; round < 20; round++) pump(20);
    tell(quiet[1].socket, "JOIN own\n");
    watch(&asker, &quiet[0], "PING\n", "PONG");
    watch(&talker, &quiet[1], "SAY own a line\n", "SAID own ");
    char *text = malloc((size_t)(count + 1) * SAID_MOST + (size_t)count * LINE_MOST);
    if (text == NULL) fail("no memory");
    size_t length = resets ? (size_t)sprintf(text, "#1 PING\n") : write_deed(text, deed, count);
    crowd_bytes = crowd_lines = 0;
    for (unsigned place = 0; place < client_count; place++) clients[place].bytes = 0;
    struct usage from = usage_of(server);
    begin_watch(&asker);
    begin_watch(&talker);
    for (unsigned round = 0; round < 2; round++) {
        unsigned asked = 0;
        marks = 0;
        for (unsigned place = 0; place < client_count; place++) {
            struct client *client = &clients[place];
            if (round == 0 && resets && place % 8 == 0 && place / 8 < count) reset(client);
            if (client->socket < 0 || (round == 0 && place >= busy_count)) continue;
            if (round > 0) tell(client->socket, "#2 PING\n");
            else tell_all(client, text, length);
            asked++;
        }
        pump_until(&marks, asked);
    }
    struct usage to = usage_of(server);
    struct quiet seen = end_watch(&asker), heard = end_watch(&talker);
    printf("lines %lu answers %lu mean %.2f half %.2f worst %.1f worst_busy %.1f talk %.1f", crowd_lines, seen.answers,
           seen.sum / (double)seen.answers * 1e3, seen.median * 1e3, seen.worst * 1e3, seen.worst_busy * 1e3, heard.worst * 1e3);
    print_usage(from, to);
}

// A while in which the server gives back what it needs no more.
static void rest(void) {
    double end = now() + 1.0;
    while (now() < end) pump(100);
}

static unsigned lines_taken;

static void take_counted(struct client *client, const char *bytes, size_t count) {
    (void)client;
    for (size_t at = 0; at < count; at++) lines_taken += bytes[at] == '\n';
}

// One client asks, and waits for the answer, so often.
static void ping_alone(unsigned times) {
    take = take_counted;
    for (unsigned time = 1; time <= times; time++) {
        tell(clients[0].socket, "PING\n");
        pump_until(&lines_taken, time);
    }
}

static void run_memory(int port) {
    unsigned long before = resident();
    open_clients(port);
    rest();
    unsigned long greeted = resident();
    log_all_in(true);
    pump_until(&told_count, client_count);
    join_all();
    rest();
    unsigned long joined = resident();
    expect_silence();
    ping_alone(10);
    rest();
    unsigned long quiet = resident();
    printf("before %lu greeted %lu joined %lu quiet %lu", before, greeted, joined, quiet);
    printf(" bytes_greeted %.0f bytes_joined %.0f bytes_quiet %.0f\n", (double)(greeted - before) * 1024 / client_count,
           (double)(joined - before) * 1024 / client_count, (double)(quiet - before) * 1024 / client_count);
}

int main(int count, char **words) {
    const char *mode = count > 1 ? words[1] : "";
    int port = (int)number_at("PORT", 2, count, words, 65535);
    server = (int)number_at("PID", 3, count, words, 1 << 30);
    client_count = (unsigned)number_at("CLIENTS", 4, count, words, CLIENTS_MOST);
    quiet_count = count > 7 && strcmp(words[7], "0") != 0 ? (unsigned)number_at("QUIET", 7, count, words, CLIENTS_MOST) : 0;
    if (strcmp(mode, "crowd") == 0) quiet_count = 2;
    clients = calloc(client_count + quiet_count, sizeof *clients);
    poll_set = epoll_create1(0);
    if (clients == NULL || poll_set < 0) fail("no memory or poll");
    deadline = now() + SECONDS_MOST;
    alarm(SECONDS_MOST + 10);
    if (strcmp(mode, "memory") == 0) {
        run_memory(port);
        return 0;
    }
    size_t bytes = count > 8 ? (size_t)number_at("BYTES", 8, count, words, SAID_MOST) : SAID_LEAST;
    if (bytes < SAID_LEAST) fail("a line has %d bytes at least", SAID_LEAST);
    open_clients(port);
    if (strcmp(mode, "fanout") == 0) run_fanout((uint64_t)number_at("WINDOW", 5, count, words, WINDOW_MOST), (double)number_at("SECONDS", 6, count, words, 30), bytes);
    else if (strcmp(mode, "ping") == 0) run_ping((unsigned)number_at("DEPTH", 5, count, words, DEPTH_MOST), (double)number_at("SECONDS", 6, count, words, 30));
    else if (strcmp(mode, "pace") == 0) run_pace((unsigned)number_at("RATE", 5, count, words, RATE_MOST), (double)number_at("SECONDS", 6, count, words, 30));
    else if (strcmp(mode, "crowd") == 0) run_crowd(words[5], (unsigned)number_at("COUNT", 6, count, words, 512), count > 7 ? (unsigned)number_at("BUSY", 7, count, words, CLIENTS_MOST) : client_count);
    else if (strcmp(mode, "logins") == 0 && count > 5) run_logins(words[5]);
    else fail("there is no mode %s", mode);
    return 0;
}
