// What the loads and the bare loop share: words of a command line, connections, PINGs, waits and the figures of a server.
#define _GNU_SOURCE
#include <arpa/inet.h>
#include <errno.h>
#include <fcntl.h>
#include <netinet/in.h>
#include <netinet/tcp.h>
#include <stdarg.h>
#include <stdbool.h>
#include <stdint.h>
#include <stdio.h>
#include <stdlib.h>
#include <string.h>
#include <sys/epoll.h>
#include <sys/socket.h>
#include <time.h>
#include <unistd.h>

#define PASSWORD "X03MO1qnZdYdgyfeuILPmQ=="

enum {
    DEPTH_MOST = 1024, // PINGs of a client that are unanswered
    BUCKETS = 16384,
};

struct usage {
    double at, user, system;
};

// How often one waited so long, by tenths of a microsecond: each up to 1,024, and above in steps of a five hundredth at most.
struct waits {
    uint64_t count, of[BUCKETS];
};

// A client's PINGs: how many there are so far, the bytes of the answers, and when those that are unanswered were sent, in a ring.
struct pings {
    uint64_t asked, bytes;
    double *sent_at;
};

__attribute__((noreturn, format(printf, 1, 2))) static inline void fail(const char *form, ...) {
    va_list words;
    va_start(words, form);
    fprintf(stderr, "%s: ", program_invocation_short_name);
    vfprintf(stderr, form, words);
    fprintf(stderr, "\n");
    va_end(words);
    exit(1);
}

// A word of the command line that is to be a number from 1 up.
static inline long number_at(const char *name, int place, int count, char **words, long most) {
    char *end = "";
    if (place >= count) fail("%s is missing", name);
    long number = strtol(words[place], &end, 10);
    if (end == words[place] || *end != '\0' || number < 1 || number > most) fail("%s is to be a number from 1 to %ld, not %s", name, most, words[place]);
    return number;
}

static inline double now(void) {
    struct timespec time;
    clock_gettime(CLOCK_MONOTONIC, &time);
    return (double)time.tv_sec + (double)time.tv_nsec * 1e-9;
}

// The processor time that a server has taken so far.
static inline struct usage usage_of(int server) {
    char path[64], text[1024];
    snprintf(path, sizeof path, "/proc/%d/stat", server);
    FILE *file = fopen(path, "r");
    if (file == NULL || fgets(text, sizeof text, file) == NULL) fail("no server %d", server);
    fclose(file);
    const char *behind_name = strrchr(text, ')');
    unsigned long user, system;
    if (behind_name == NULL || sscanf(behind_name + 1, " %*c %*d %*d %*d %*d %*d %*u %*u %*u %*u %*u %lu %lu", &user, &system) != 2)
        fail("cannot read %s", path);
    double second = (double)sysconf(_SC_CLK_TCK);
    return (struct usage){ now(), (double)user / second, (double)system / second };
}

static inline void print_usage(struct usage from, struct usage to) {
    printf(" seconds %.4f user %.2f system %.2f\n", to.at - from.at, to.user - from.user, to.system - from.system);
}

static inline int connect_to(int port) {
    struct sockaddr_in address = { .sin_family = AF_INET, .sin_port = htons((uint16_t)port), .sin_addr.s_addr = htonl(INADDR_LOOPBACK) };
    int one = 1, it = socket(AF_INET, SOCK_STREAM, 0);
    if (it < 0 || connect(it, (const struct sockaddr *)&address, sizeof address) != 0) fail("cannot connect: %s", strerror(errno));
    setsockopt(it, IPPROTO_TCP, TCP_NODELAY, &one, sizeof one);
    return it;
}

// A write of few bytes, which the socket has room for.
static inline void write_all(int socket, const char *text, size_t length) {
    if (write(socket, text, length) != (ssize_t)length) fail("cannot write: %s", strerror(errno));
}

__attribute__((format(printf, 2, 3))) static inline void tell(int socket, const char *form, ...) {
    char text[256];
    va_list words;
    va_start(words, form);
    int length = vsnprintf(text, sizeof text, form, words);
    va_end(words);
    write_all(socket, text, (size_t)length);
}

static inline void note_wait(struct waits *waits, double seconds) {
    uint64_t tenths = (uint64_t)(seconds * 1e7);
    int shift = tenths < 1024 ? 0 : 54 - __builtin_clzll(tenths);
    size_t bucket = (size_t)shift * 512 + (tenths >> shift);
    waits->of[bucket < BUCKETS ? bucket : BUCKETS - 1]++;
    waits->count++;
}

static inline void add_waits(struct waits *all, const struct waits *more) {
    for (size_t bucket = 0; bucket < BUCKETS; bucket++) all->of[bucket] += more->of[bucket];
    all->count += more->count;
}

// The microseconds below which such a share of the waits was.
static inline double wait_below(const struct waits *waits, double share) {
    double wanted = share * (double)waits->count, seen = 0;
    size_t bucket = 0;
    while (bucket + 1 < BUCKETS && (seen += (double)waits->of[bucket]) < wanted) bucket++;
    size_t shift = bucket < 1024 ? 0 : bucket / 512 - 1;
    return (double)((bucket - shift * 512) << shift) / 10;
}

static inline void make_pings(struct pings *pings) {
    pings->sent_at = calloc(DEPTH_MOST, sizeof *pings->sent_at);
    if (pings->sent_at == NULL) fail("no memory");
}

// Sends PING until so many are unanswered.
static inline void ask(struct pings *pings, int socket, unsigned depth) {
    char text[DEPTH_MOST * 5];
    size_t length = 0;
    double at = now();
    for (; pings->asked < pings->bytes / 5 + depth; length += 5) {
        memcpy(text + length, "PING\n", 5);
        pings->sent_at[pings->asked++ % DEPTH_MOST] = at;
    }
    if (length > 0) write_all(socket, text, length);
}

// Notes how long each of these answers was waited for, if there is a place for it.
static inline void take_pongs(struct pings *pings, const char *bytes, size_t count, struct waits *waits) {
    double at = now();
    for (size_t place = 0; place < count; place++) {
        if (bytes[place] != "PONG\n"[pings->bytes % 5]) fail("no PONG: %.*s", (int)(count - place), bytes + place);
        if (++pings->bytes % 5 != 0) continue;
        uint64_t which = pings->bytes / 5 - 1;
        if (which >= pings->asked) fail("a PONG too many");
        if (waits != NULL) note_wait(waits, at - pings->sent_at[which % DEPTH_MOST]);
    }
}
