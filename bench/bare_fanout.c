// bare_fanout PORT [lines|THREADS] : a bare epoll loop beside which the server is measured. It speaks as much of the protocol as
// the loads of this folder need: the greeting, LOGIN with each user told of each, JOIN and SAY in one channel, and PING. Edge-triggered,
// one buffer for what each client is to get, which is written once at the end of each round of the poll; with the word `lines` each line
// is written at once. It checks no more than it needs. So many threads (1), each with a poll of its own, have the clients in turn, and share
// the users, the channel and the buffers under one lock; no read or write of a socket is under it. gcc -O2 -pthread.
#include "common.h"
#include <pthread.h>
#include <stdatomic.h>
#include <sys/eventfd.h>

enum { READ_BYTES = 65536, LINE_MOST = 8192, READY_MOST = 1024, USERS_MOST = 10000, KEPT_BYTES = 32768, THREADS_MOST = 32 };

struct buffer {
    char *bytes;
    size_t begin, end, room;
};

struct client {
    struct buffer waiting;        // what it is to get: under the lock, as the next two
    bool is_dirty;
    struct client *next_dirty;
    struct thread *thread;        // which alone has what follows
    struct buffer writing;        // what it took of what waits, where others may put more meanwhile
    int socket;
    bool is_closed, is_full;
    unsigned number;              // of its user, 0 before its login
    char *line;                   // a line that has not come to its end
    size_t held;
};

struct thread {
    int poll_set, waker;
    struct client *first_dirty;   // under the lock
    atomic_bool waits;            // in a poll without end, or on its way there: set under the lock
} __attribute__((aligned(64)));

static struct thread threads[THREADS_MOST];
static unsigned thread_count = 1;
static __thread struct thread *self;
static __thread struct buffer spare;  // the last one that was taken and is written
static __thread uint32_t to_wake;     // bits of threads
static pthread_mutex_t mutex = PTHREAD_ADAPTIVE_MUTEX_INITIALIZER_NP;
static bool writes_each_line;
static struct client listener;        // which has only a socket
static struct client *users[USERS_MOST + 1];
static unsigned last_user;
static struct client *members[USERS_MOST];
static unsigned member_count;
static char channel[64];

static void lock(void) {
    if (thread_count > 1) pthread_mutex_lock(&mutex);
}

// Gives the lock back, and then wakes those that wait and got something to write.
static void unlock(void) {
    if (thread_count == 1) return;
    pthread_mutex_unlock(&mutex);
    for (; to_wake != 0; to_wake &= to_wake - 1) eventfd_write(threads[__builtin_ctz(to_wake)].waker, 1);
}

// Writes what is in a buffer, as much as the client's socket takes, and tells whether that was all.
static bool write_out(struct client *client, struct buffer *buffer) {
    while (buffer->begin < buffer->end && !client->is_closed) {
        ssize_t count = write(client->socket, buffer->bytes + buffer->begin, buffer->end - buffer->begin);
        if (count < 0 && errno == EINTR) continue;
        client->is_full = count < 0 && errno == EAGAIN;
        if (client->is_full) return false;
        if (count < 0) client->is_closed = true;
        else buffer->begin += (size_t)count;
    }
    buffer->begin = buffer->end = 0;
    if (buffer->room > KEPT_BYTES) {
        free(buffer->bytes);
        *buffer = (struct buffer){ 0 };
    }
    return true;
}

// Takes what waits for a client of one of the threads, and writes it behind what its socket did not take before.
static void take_and_write(struct client *client) {
    bool is_free = !client->is_full && write_out(client, &client->writing);
    lock();
    client->is_dirty = false;
    if (is_free) {
        free(client->writing.bytes);
        client->writing = client->waiting;
        client->waiting = spare;
        spare = (struct buffer){ 0 };
    }
    unlock();
    if (!is_free || !write_out(client, &client->writing)) return;
    spare = client->writing;
    client->writing = (struct buffer){ 0 };
}

static void flush(struct client *client) {
    if (thread_count > 1) {
        take_and_write(client);
        return;
    }
    client->is_dirty = false;
    if (!client->is_full) write_out(client, &client->waiting);
}

static void make_room(struct buffer *buffer, size_t length) {
    if (buffer->end + length <= buffer->room) return;
    size_t room = buffer->room == 0 ? 1024 : buffer->room;
    while (room < buffer->end + length) room *= 2;
    buffer->bytes = realloc(buffer->bytes, room);
    if (buffer->bytes == NULL) fail("no memory");
    buffer->room = room;
}

// Has a client written to at the end of the round of its thread.
static inline void note_dirty(struct client *client) {
    struct thread *thread = client->thread;
    if (client->is_dirty) return;
    client->is_dirty = true;
    client->next_dirty = thread->first_dirty;
    thread->first_dirty = client;
    if (!atomic_load_explicit(&thread->waits, memory_order_relaxed)) return;
    atomic_store_explicit(&thread->waits, false, memory_order_relaxed);
    to_wake |= UINT32_C(1) << (thread - threads);
}

static void put(struct client *client, const char *bytes, size_t length) {
    struct buffer *waiting = &client->waiting;
    make_room(waiting, length);
    memcpy(waiting->bytes + waiting->end, bytes, length);
    waiting->end += length;
    if (!writes_each_line) note_dirty(client);
    else if (!client->is_full) flush(client);
}

static size_t user_line(char *line, unsigned number) {
    return (size_t)sprintf(line, "ADDUSER u%04u ?? 0 %u\n", number, number);
}

// All users are told of the newcomer, and the newcomer of all.
static void log_in(struct client *client, const char *rest) {
    char line[64], word[32];
    unsigned number;
    if (sscanf(rest, "u%u %31s", &number, word) != 2 || number < 1 || number > USERS_MOST || strcmp(word, PASSWORD) != 0 || users[number] != NULL) {
        put(client, "DENIED Invalid username or password\n", 36);
        return;
    }
    size_t length = user_line(line, number);
    for (unsigned other = 1; other <= last_user; other++)
        if (users[other] != NULL) put(users[other], line, length);
    users[number] = client;
    client->number = number;
    if (number > last_user) last_user = number;
    put(client, line, (size_t)sprintf(line, "ACCEPTED u%04u\n", number));
    for (unsigned other = 1; other <= last_user; other++)
        if (users[other] != NULL) put(client, line, user_line(line, other));
    put(client, "LOGININFOEND\n", 13);
}

static void join(struct client *client, const char *name) {
    char line[512];
    size_t length;
    snprintf(channel, sizeof channel, "%.20s", name);
    length = (size_t)sprintf(line, "JOINED %s u%04u\n", channel, client->number);
    for (unsigned place = 0; place < member_count; place++) put(members[place], line, length);
    members[member_count++] = client;
    put(client, line, (size_t)sprintf(line, "JOIN %s\n", channel));
    for (unsigned place = 0; place < member_count; place += 32) {
        length = (size_t)sprintf(line, "CLIENTS %s", channel);
        for (unsigned next = place; next < member_count && next < place + 32; next++)
            length += (size_t)sprintf(line + length, " u%04u", members[next]->number);
        line[length++] = '\n';
        put(client, line, length);
    }
}

static void say(const struct client *speaker, const char *rest, size_t length) {
    static char line[LINE_MOST + 128];
    size_t name = strlen(channel);
    if (length <= name || memcmp(rest, channel, name) != 0 || rest[name] != ' ') return;
    size_t front = (size_t)sprintf(line, "SAID %s u%04u", channel, speaker->number);
    memcpy(line + front, rest + name, length - name);
    length = front + length - name;
    line[length++] = '\n';
    for (unsigned place = 0; place < member_count; place++) put(members[place], line, length);
}

// A line that ends with a zero byte in the place of its LF.
static void serve(struct client *client, const char *line, size_t length) {
    if (length == 4 && memcmp(line, "PING", 4) == 0) put(client, "PONG\n", 5);
    else if (length > 4 && memcmp(line, "SAY ", 4) == 0) say(client, line + 4, length - 4);
    else if (length > 6 && memcmp(line, "LOGIN ", 6) == 0) log_in(client, line + 6);
    else if (length > 5 && memcmp(line, "JOIN ", 5) == 0 && member_count < USERS_MOST) join(client, line + 5);
    else put(client, "SERVERMSG Unknown command\n", 26);
}

// Keeps the start of a line until the rest of it comes.
static void hold(struct client *client, const char *bytes, size_t count) {
    if (client->held + count > LINE_MOST) {
        client->is_closed = true;
        return;
    }
    client->line = realloc(client->line, LINE_MOST + 1);
    if (client->line == NULL) fail("no memory");
    memcpy(client->line + client->held, bytes, count);
    client->held += count;
}

static void take(struct client *client, char *bytes, size_t count) {
    char *end;
    while (count > 0 && !client->is_closed && (end = memchr(bytes, '\n', count)) != NULL) {
        size_t length = (size_t)(end - bytes);
        *end = '\0';
        if (client->held > 0) {
            hold(client, bytes, length + 1);
            if (client->is_closed) return;
            serve(client, client->line, client->held - 1);
            free(client->line);
            client->line = NULL;
            client->held = 0;
        } else {
            serve(client, bytes, length);
        }
        bytes += length + 1;
        count -= length + 1;
    }
    if (count > 0) hold(client, bytes, count);
}

// Reads until there is no more: a read that fills less than its room took all.
static void hear(struct client *client) {
    static __thread char bytes[READ_BYTES];
    ssize_t count;
    do {
        count = read(client->socket, bytes, sizeof bytes);
        if (count > 0) {
            lock();
            take(client, bytes, (size_t)count);
            unlock();
        } else if (count == 0 || (errno != EAGAIN && errno != EINTR)) {
            client->is_closed = true;
        }
    } while (!client->is_closed && (count == READ_BYTES || (count < 0 && errno == EINTR)));
}

static void add_to(int poll_set, int socket, uint32_t events, void *whose) {
    struct epoll_event event = { .events = events | EPOLLET, .data.ptr = whose };
    if (epoll_ctl(poll_set, EPOLL_CTL_ADD, socket, &event) != 0) fail("epoll_ctl: %s", strerror(errno));
}

// Clients come to the threads in turn.
static void accept_all(void) {
    static unsigned accepted;
    int one = 1;
    for (;;) {
        int socket = accept4(listener.socket, NULL, NULL, SOCK_NONBLOCK);
        if (socket < 0) return;
        struct client *client = calloc(1, sizeof *client);
        if (client == NULL) fail("no memory");
        client->socket = socket;
        client->thread = &threads[accepted++ % thread_count];
        setsockopt(socket, IPPROTO_TCP, TCP_NODELAY, &one, sizeof one);
        lock();
        put(client, "TASSERVER 0.38 * 8201 0\n", 24);
        unlock();
        add_to(client->thread->poll_set, socket, EPOLLIN | EPOLLOUT, client);
    }
}

// A client that is gone is told nothing more. Nobody is told of it, and its memory is not given back: no client of the load goes
// before the end.
static void drop_client(struct client *client) {
    unsigned kept = 0;
    lock();
    for (unsigned place = 0; place < member_count; place++)
        if (members[place] != client) members[kept++] = members[place];
    member_count = kept;
    if (users[client->number] == client) users[client->number] = NULL;
    unlock();
    close(client->socket);
}

// Writes to all clients of this thread that are to get something, and tells whether nobody is now. Whoever puts something for them from
// then on wakes the thread.
static bool flush_dirty(void) {
    lock();
    struct client *client = self->first_dirty;
    self->first_dirty = NULL;
    unlock();
    while (client != NULL) {
        struct client *next = client->next_dirty;
        flush(client);
        client = next;
    }
    lock();
    bool is_done = self->first_dirty == NULL;
    atomic_store_explicit(&self->waits, is_done, memory_order_relaxed);
    unlock();
    return is_done;
}

static int listen_at(int port) {
    struct sockaddr_in address = { .sin_family = AF_INET, .sin_port = htons((uint16_t)port), .sin_addr.s_addr = htonl(INADDR_LOOPBACK) };
    int one = 1, listener = socket(AF_INET, SOCK_STREAM | SOCK_NONBLOCK, 0);
    setsockopt(listener, SOL_SOCKET, SO_REUSEADDR, &one, sizeof one);
    if (listener < 0 || bind(listener, (struct sockaddr *)&address, sizeof address) != 0 || listen(listener, 1024) != 0) fail("listen: %s", strerror(errno));
    return listener;
}

__attribute__((noreturn)) static void *work(void *thread) {
    static __thread struct epoll_event ready[READY_MOST];
    self = thread;
    for (;;) {
        int news = epoll_wait(self->poll_set, ready, READY_MOST, flush_dirty() ? -1 : 0);
        atomic_store_explicit(&self->waits, false, memory_order_relaxed);
        for (int place = 0; place < news; place++) {
            struct client *client = ready[place].data.ptr;
            if (client == NULL) continue; // the waker
            if (client == &listener) {
                accept_all();
                continue;
            }
            // The poll tells that a socket takes bytes each time that it tells of it.
            if ((ready[place].events & EPOLLOUT) && client->is_full) {
                client->is_full = false;
                lock();
                note_dirty(client);
                unlock();
            }
            if (ready[place].events & ~(uint32_t)EPOLLOUT) hear(client);
            if (client->is_closed) drop_client(client);
        }
    }
}

int main(int count, char **words) {
    int port = (int)number_at("PORT", 1, count, words, 65535);
    writes_each_line = count > 2 && strcmp(words[2], "lines") == 0;
    if (count > 2 && !writes_each_line) thread_count = (unsigned)number_at("THREADS", 2, count, words, THREADS_MOST);
    for (unsigned place = 0; place < thread_count; place++) {
        threads[place].poll_set = epoll_create1(0);
        threads[place].waker = eventfd(0, EFD_NONBLOCK);
        add_to(threads[place].poll_set, threads[place].waker, EPOLLIN, NULL);
    }
    listener.socket = listen_at(port);
    add_to(threads[0].poll_set, listener.socket, EPOLLIN, &listener);
    puts("listening");
    fflush(stdout);
    for (unsigned place = 1; place < thread_count; place++) {
        pthread_t thread;
        if (pthread_create(&thread, NULL, work, &threads[place]) != 0) fail("no thread");
    }
    work(&threads[0]);
}
