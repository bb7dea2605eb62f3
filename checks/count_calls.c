/* Counts calls of the system that a program makes, for LD_PRELOAD, in the file that COUNTED names: wakes, which are writes to a
   file made by eventfd, polls, and sends. It includes nothing, so that the toolchain's own compiler builds it. */
extern long syscall(long number, ...);
extern char *getenv(const char *name);

/* As the system's headers for x86-64 and ARM have them. */
#ifdef __x86_64__
enum { WRITE = 1, SEND = 44, OPEN_AT = 257, MAP = 9, EVENT_FILE = 290, POLL = 281 };
#else
enum { WRITE = 64, SEND = 206, OPEN_AT = 56, MAP = 222, EVENT_FILE = 19, POLL = 22 };
#endif
enum { HERE = -100, READ_WRITE = 2, MAP_READ_WRITE = 3, SHARED = 1, FILES = 1 << 16 };

/* What is counted, as the file has it. */
struct counts {
    unsigned long long wakes, polls, sends;
};

/* Which files eventfd made. */
static char is_event[FILES];
static struct counts *counts;

__attribute__((constructor)) static void begin(void) {
    const char *name = getenv("COUNTED");
    long file = name ? syscall(OPEN_AT, HERE, name, READ_WRITE, 0) : -1;
    if (file < 0)
        return;
    long place = syscall(MAP, (void *)0, sizeof *counts, MAP_READ_WRITE, SHARED, file, 0l);
    if (place > 0)
        counts = (struct counts *)place;
}

int eventfd(unsigned begun, int how) {
    int file = syscall(EVENT_FILE, begun, how);
    if (file >= 0 && file < FILES)
        is_event[file] = 1;
    return file;
}

long write(int file, const void *bytes, unsigned long count) {
    if (counts && file >= 0 && file < FILES && is_event[file])
        __atomic_fetch_add(&counts->wakes, 1, __ATOMIC_SEQ_CST);
    return syscall(WRITE, file, bytes, count);
}

long send(int file, const void *bytes, unsigned long count, int how) {
    if (counts)
        __atomic_fetch_add(&counts->sends, 1, __ATOMIC_SEQ_CST);
    return syscall(SEND, file, bytes, count, how, (void *)0, 0l);
}

int epoll_wait(int poll, void *told, int most, int milliseconds) {
    if (counts)
        __atomic_fetch_add(&counts->polls, 1, __ATOMIC_SEQ_CST);
    return syscall(POLL, poll, told, most, milliseconds, (void *)0, 8l);
}
