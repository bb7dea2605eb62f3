/* Keeps from a program that what it registered to be read and written can be written to, for LD_PRELOAD: a poll tells of
   such a registration what has come by it, and nothing where nothing has. It includes nothing, so that the toolchain's own
   compiler builds it. */
struct told {
    unsigned what;
    unsigned long long token;
}
#ifdef __x86_64__
__attribute__((packed))
#endif
;

/* As the system's headers for x86-64 and ARM have them. */
enum { REMOVED = 2, READABLE = 1, WRITABLE = 4, PLACES = 1 << 16 };

extern long syscall(long number, ...);
#ifdef __x86_64__
enum { CONTROL = 233, POLL = 281 };
#else
enum { CONTROL = 21, POLL = 22 };
#endif

/* What was registered and not told of since, by token. */
static char is_new[PLACES];

int epoll_ctl(int poll, int how, int file, struct told *told) {
    if (how != REMOVED && (told->what & READABLE))
        __atomic_store_n(&is_new[told->token % PLACES], 1, __ATOMIC_SEQ_CST);
    return syscall(CONTROL, poll, how, file, told);
}

int epoll_wait(int poll, struct told *told, int most, int milliseconds) {
    for (;;) {
        int count = syscall(POLL, poll, told, most, milliseconds, (void *)0, 8l), kept = 0;
        for (int k = 0; k < count; k++)
            if (!__atomic_exchange_n(&is_new[told[k].token % PLACES], 0, __ATOMIC_SEQ_CST) || told[k].what != WRITABLE)
                told[kept++] = told[k];
        if (count <= 0 || kept > 0)
            return count <= 0 ? count : kept;
    }
}
