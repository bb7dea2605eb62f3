// threaded_load talk|irc|pings PORT PID CLIENTS WINDOW SECONDS [SPEAKERS [THREADS]] : clients of a server at 127.0.0.1:PORT, whose process
// is PID, played by so many threads (2), which have them in turn.
//
//   talk    the first SPEAKERS (1) clients speak the whole time in a channel of all. Of what each said, WINDOW lines are not with the slowest
//           client yet
//   irc     the same to a server of IRC, which does not tell a speaker its own lines; one speaks
//   pings   each client keeps WINDOW times PING unanswered, and nobody logs in
//
// It compares every byte that comes back, and prints a line of names and figures: the lines that came in the measured time, the bytes of one,
// the processor time of the server, and the microseconds below which half and 99 of a hundred waits were, from a PING to its PONG, or from when
// a line is said until the slowest client has read it. gcc -O2 -pthread.
#include "common.h"
#include <pthread.h>
#include <stdatomic.h>

enum {
    CLIENTS_MOST = 4000,
    SPEAKERS_MOST = 4,
    THREADS_MOST = 16,
    CYCLE = 64,           // so many different lines are said, and then the first comes again
    TEXT_BYTES = 43,      // a line of the lobby has 60 bytes then
    LINE_MOST = 128,
    READ_BYTES = 65536,
    READY_MOST = 512,
    SECONDS_MOST = 120,   // of all
    WARM_MOMENT = 300000, // microseconds, before the measured time
    MOMENT = 20,          // milliseconds
};

enum phase { WARM, MEASURED, ENDING };

struct client {
    int socket;
    struct pings pings;
    uint64_t heard[SPEAKERS_MOST]; // lines of each speaker
    size_t held;
    char part[LINE_MOST];          // of a line that has not come to its end
};

struct thread {
    pthread_t id;
    int poll_set;
    unsigned first;                    // its first client that is told
    atomic_ulong bytes;                // that came to its clients
    atomic_ulong least[SPEAKERS_MOST]; // so many lines of each speaker came to all its clients
    unsigned slow[SPEAKERS_MOST];      // and to so many of them no more
    struct waits waits;
} __attribute__((aligned(64)));

struct speaker {
    pthread_mutex_t mutex;
    int socket;
    uint64_t said, arrived;            // lines
    double said_at[DEPTH_MOST];        // of those that have not arrived, in a ring
} __attribute__((aligned(64)));

static struct client *clients;
static struct thread threads[THREADS_MOST];
static struct speaker speakers[SPEAKERS_MOST];
static unsigned client_count, speaker_count, thread_count, window;
static bool is_irc, is_talk;
static atomic_int phase;
static size_t say_bytes, line_bytes, name_at; // of a line as it is said, and as it is told; where the speaker's last digit is
static char say[(DEPTH_MOST + CYCLE) * LINE_MOST], told[SPEAKERS_MOST][CYCLE][LINE_MOST];

static void make_lines(void) {
    for (unsigned place = 0; place < CYCLE; place++) {
        char text[TEXT_BYTES + 1];
        snprintf(text, sizeof text, "%02u%0*d", place, TEXT_BYTES - 2, 7);
        say_bytes = (size_t)snprintf(say + place * say_bytes, LINE_MOST, is_irc ? "PRIVMSG #load :%s\r\n" : "SAY load %s\n", text);
        for (unsigned number = 1; number <= speaker_count; number++) {
            char *line = told[number - 1][place];
            line_bytes = (size_t)(is_irc ? snprintf(line, LINE_MOST, ":u%04u!~u%04u@127.0.0.1 PRIVMSG #load :%s\r\n", number, number, text)
                                         : snprintf(line, LINE_MOST, "SAID load u%04u %s\n", number, text));
        }
    }
    for (size_t place = CYCLE * say_bytes; place < (window + CYCLE) * say_bytes; place++) say[place] = say[place - CYCLE * say_bytes];
    name_at = is_irc ? 5 : 14;
    if (!is_talk) line_bytes = 5; // PONG
}

// Says as many lines as may be on their way. The speaker's mutex is locked.
static void speak(struct speaker *speaker) {
    uint64_t lines = speaker->arrived + window - speaker->said;
    const char *text = say + speaker->said % CYCLE * say_bytes;
    double at = now();
    for (uint64_t place = 0; place < lines; place++) speaker->said_at[speaker->said++ % DEPTH_MOST] = at;
    for (size_t left = lines * say_bytes; left > 0;) {
        ssize_t length = write(speaker->socket, text, left);
        if (length < 0 && errno != EAGAIN) fail("a speaker cannot write: %s", strerror(errno));
        if (length < 0) usleep(100);
        else text += length, left -= (size_t)length;
    }
}

// Notes the waits of the lines that are with the slowest client now, and has the speaker say more.
static void settle(struct thread *thread, unsigned number) {
    struct speaker *speaker = &speakers[number];
    pthread_mutex_lock(&speaker->mutex);
    uint64_t arrived = threads[0].least[number];
    for (unsigned place = 1; place < thread_count; place++)
        if (threads[place].least[number] < arrived) arrived = threads[place].least[number];
    double at = now();
    for (; speaker->arrived < arrived; speaker->arrived++)
        if (phase == MEASURED) note_wait(&thread->waits, at - speaker->said_at[speaker->arrived % DEPTH_MOST]);
    if (phase < ENDING) speak(speaker);
    pthread_mutex_unlock(&speaker->mutex);
}

// How many of the speaker's lines the thread's slowest clients were told, and how many clients these are.
static void find_least(struct thread *thread, unsigned number) {
    uint64_t least = UINT64_MAX;
    for (unsigned place = thread->first; place < client_count; place += thread_count) {
        uint64_t heard = clients[place].heard[number];
        if (heard < least) least = heard, thread->slow[number] = 0;
        thread->slow[number] += heard == least;
    }
    thread->least[number] = least;
}

static void take_said(struct thread *thread, struct client *client, const char *bytes, size_t count) {
    uint64_t before[SPEAKERS_MOST];
    memcpy(before, client->heard, sizeof before);
    for (; count >= line_bytes; count -= line_bytes, bytes += line_bytes) {
        unsigned number = (unsigned)(bytes[name_at] - '1');
        if (number >= speaker_count || memcmp(bytes, told[number][client->heard[number] % CYCLE], line_bytes) != 0)
            fail("client %u did not expect: %.*s", (unsigned)(client - clients) + 1, (int)line_bytes, bytes);
        client->heard[number]++;
    }
    memcpy(client->part, bytes, count);
    client->held = count;
    for (unsigned number = 0; number < speaker_count; number++) {
        if (client->heard[number] == before[number] || before[number] > thread->least[number] || --thread->slow[number] > 0) continue;
        find_least(thread, number);
        settle(thread, number);
    }
}

static void take_answers(struct thread *thread, struct client *client, const char *bytes, size_t count) {
    take_pongs(&client->pings, bytes, count, phase == MEASURED ? &thread->waits : NULL);
    if (phase < ENDING) ask(&client->pings, client->socket, window);
}

// Whether all that was said or asked so far came to the thread's clients.
static bool is_settled(const struct thread *thread) {
    for (unsigned place = thread->first; place < client_count; place += thread_count)
        if (clients[place].pings.bytes < clients[place].pings.asked * 5) return false;
    bool is_all = true;
    for (unsigned number = 0; number < speaker_count; number++) {
        pthread_mutex_lock(&speakers[number].mutex);
        is_all = is_all && speakers[number].arrived == speakers[number].said;
        pthread_mutex_unlock(&speakers[number].mutex);
    }
    return is_all;
}

static void *hear(void *of) {
    static __thread char bytes[LINE_MOST + READ_BYTES];
    struct epoll_event ready[READY_MOST];
    struct thread *thread = of;
    while (phase < ENDING || !is_settled(thread)) {
        int count = epoll_wait(thread->poll_set, ready, READY_MOST, MOMENT);
        for (int place = 0; place < count; place++) {
            struct client *client = ready[place].data.ptr;
            memcpy(bytes, client->part, client->held);
            ssize_t length = read(client->socket, bytes + client->held, READ_BYTES);
            if (length < 0 && (errno == EAGAIN || errno == EINTR)) continue;
            if (length <= 0) fail("client %u was closed", (unsigned)(client - clients) + 1);
            atomic_fetch_add_explicit(&thread->bytes, (unsigned long)length, memory_order_relaxed);
            if (is_talk) take_said(thread, client, bytes, client->held + (size_t)length);
            else take_answers(thread, client, bytes, (size_t)length);
        }
    }
    return NULL;
}

static uint64_t bytes_of_all(void) {
    uint64_t bytes = 0;
    for (unsigned place = 0; place < thread_count; place++) bytes += threads[place].bytes;
    return bytes;
}

// Waits until a client's bytes have these words. Nobody talks meanwhile.
static void await(const struct client *client, const char *words) {
    char bytes[READ_BYTES + 1];
    size_t held = 0;
    for (;;) {
        ssize_t length = read(client->socket, bytes + held, READ_BYTES - held);
        if (length <= 0) fail("client %u was closed", (unsigned)(client - clients) + 1);
        held += (size_t)length;
        bytes[held] = '\0';
        if (strstr(bytes, words) != NULL) return;
        if (held > READ_BYTES / 2) {
            memmove(bytes, bytes + held - 100, 101);
            held = 100;
        }
    }
}

static void connect_all(int port) {
    for (struct client *client = clients; client < clients + client_count; client++) {
        client->socket = connect_to(port);
        make_pings(&client->pings);
        if (!is_irc) await(client, "TASSERVER 0.38 * 8201 0\n");
    }
}

// Has each client in turn say what comes behind, with its number, and then waits until each was told these words.
static void tell_all(const char *form, const char *words) {
    for (unsigned number = 1; number <= client_count; number++) tell(clients[number - 1].socket, form, number, number);
    for (unsigned place = 0; place < client_count; place++) await(&clients[place], words);
}

// The second PING is answered behind all that the joins told.
static void enter_all(void) {
    if (is_irc) {
        tell_all("NICK u%04u\r\nUSER u%04u 0 * :load\r\n", " 422 "); // no message of the day
        tell_all("JOIN #load\r\nPING :1\r\n", " PONG ");
        tell_all("PING :2\r\n", " PONG ");
    } else {
        tell_all("LOGIN u%04u " PASSWORD " 0 127.0.0.1 load\n", "LOGININFOEND\n");
        tell_all("JOIN load\nPING\n", "PONG\n");
        tell_all("PING\n", "PONG\n");
    }
}

static void start_threads(void) {
    for (unsigned place = 0; place < thread_count; place++) {
        threads[place].poll_set = epoll_create1(0);
        threads[place].first = place == 0 && is_irc ? thread_count : place;
        for (unsigned number = 0; number < speaker_count; number++) find_least(&threads[place], number);
    }
    for (unsigned place = 0; place < client_count; place++) {
        struct epoll_event event = { .events = EPOLLIN, .data.ptr = &clients[place] };
        fcntl(clients[place].socket, F_SETFL, O_NONBLOCK);
        if (epoll_ctl(threads[place % thread_count].poll_set, EPOLL_CTL_ADD, clients[place].socket, &event) != 0) fail("epoll_ctl: %s", strerror(errno));
    }
    for (unsigned number = 0; number < speaker_count; number++) {
        pthread_mutex_init(&speakers[number].mutex, NULL);
        speakers[number].socket = clients[number].socket;
        speak(&speakers[number]);
    }
    for (unsigned place = 0; place < client_count && !is_talk; place++) ask(&clients[place].pings, clients[place].socket, window);
    for (unsigned place = 0; place < thread_count; place++)
        if (pthread_create(&threads[place].id, NULL, hear, &threads[place]) != 0) fail("no thread");
}

// Each who is told has what was said, and nothing more comes.
static void compare(void) {
    usleep(MOMENT * 1000);
    for (unsigned place = 0; place < client_count; place++) {
        for (unsigned number = 0; number < speaker_count && place >= is_irc; number++)
            if (clients[place].heard[number] != speakers[number].said) fail("client %u was told other than was said", place + 1);
        char more;
        if (clients[place].held > 0 || read(clients[place].socket, &more, 1) >= 0) fail("client %u was told more or closed", place + 1);
    }
}

static void read_words(int count, char **words) {
    const char *mode = count > 1 ? words[1] : "none";
    is_irc = strcmp(mode, "irc") == 0;
    is_talk = is_irc || strcmp(mode, "talk") == 0;
    if (!is_talk && strcmp(mode, "pings") != 0) fail("there is no mode %s", mode);
    client_count = (unsigned)number_at("CLIENTS", 4, count, words, CLIENTS_MOST);
    window = (unsigned)number_at("WINDOW", 5, count, words, DEPTH_MOST);
    if (is_talk) speaker_count = count > 7 ? (unsigned)number_at("SPEAKERS", 7, count, words, is_irc ? 1 : SPEAKERS_MOST) : 1;
    thread_count = count > 8 ? (unsigned)number_at("THREADS", 8, count, words, THREADS_MOST) : 2;
    if (is_talk && (client_count <= thread_count || client_count < speaker_count)) fail("CLIENTS are too few");
    clients = calloc(client_count, sizeof *clients);
    if (clients == NULL) fail("no memory");
}

int main(int count, char **words) {
    read_words(count, words);
    int port = (int)number_at("PORT", 2, count, words, 65535), server = (int)number_at("PID", 3, count, words, 1 << 30);
    long seconds = number_at("SECONDS", 6, count, words, 30);
    alarm(SECONDS_MOST);
    make_lines();
    connect_all(port);
    if (is_talk) enter_all();
    start_threads();
    usleep(WARM_MOMENT);
    phase = MEASURED;
    uint64_t before = bytes_of_all();
    struct usage from = usage_of(server);
    sleep((unsigned)seconds);
    struct usage to = usage_of(server);
    uint64_t bytes = bytes_of_all() - before;
    phase = ENDING;
    for (unsigned place = 0; place < thread_count; place++) pthread_join(threads[place].id, NULL);
    compare();
    struct waits *waits = &threads[0].waits;
    for (unsigned place = 1; place < thread_count; place++) add_waits(waits, &threads[place].waits);
    if (waits->count == 0) fail("nothing came to all in the measured time");
    printf("lines %lu bytes %zu median %.1f late %.1f", bytes / line_bytes, line_bytes, wait_below(waits, 0.5), wait_below(waits, 0.99));
    print_usage(from, to);
}
