/* Refuses allocations of a program, and counts them; for LD_PRELOAD. It includes nothing, so that the toolchain's own
   compiler builds it.

   The variable REFUSED numbers the allocation that is refused, from the program's start. REFUSED_WHILE names a file:
   each allocation is refused while it is there. To the file that REFUSED_TOLD names each refusal adds a line:
   `program`, or `library` where a shared library asked, as the C library does for a thread. Or the program says it
   itself, by requests that no system grants: one of BEGIN + k bytes is refused, and has the k-th allocation behind it
   refused, once. One of END bytes has nothing refused from then on; it is granted where an allocation was refused, by a
   byte alone, and refused where none was.

   From a request of MARK bytes on, which is refused, growths are counted: allocations, and blocks that are made larger.
   One of TELL bytes is refused, and a line on standard error says how many growths there were, how many bytes they asked
   for, and how many more are held than at the mark, less than 0 where fewer are. */
typedef __SIZE_TYPE__ size_t;

/* counted.rt has all four. */
static const size_t BEGIN = (size_t)1 << 60;
static const size_t END = (size_t)1 << 59;
static const size_t MARK = (size_t)1 << 58;
static const size_t TELL = (size_t)1 << 57;

/* As the system's headers for x86-64 and ARM have them. */
enum { NO_MEMORY = 12, TO_WRITE = 01, TO_CREATE = 0100, TO_APPEND = 02000 };

struct place {
    const char *file;
    void *base;
    const char *name;
    void *at;
};

extern char *getenv(const char *name);
extern unsigned long strtoul(const char *word, char **end, int base);
extern int *__errno_location(void);
extern int access(const char *path, int how);
extern int open(const char *path, int how, ...);
extern long write(int file, const void *from, size_t count);
extern int close(int file);
extern int dprintf(int file, const char *format, ...);
extern size_t malloc_usable_size(void *at);
extern char *strstr(const char *in, const char *word);
extern int dladdr(const void *address, struct place *place);
extern void *__libc_malloc(size_t size);
extern void *__libc_calloc(size_t count, size_t size);
extern void *__libc_realloc(void *at, size_t size);
extern void *__libc_memalign(size_t alignment, size_t size);
extern void __libc_free(void *at);

/* How many allocations there were, and the number of the one that is refused, 0 for none. */
static size_t taken, refused;

/* Growths since the mark, the bytes that they asked for, and the bytes that are held more than at the mark. */
static size_t grown, asked;
static long held;

/* While this file is there all are refused, and to that one each refusal is told; 0 for none. */
static const char *lasting, *told;

__attribute__((constructor)) static void begin(void) {
    const char *word = getenv("REFUSED");
    taken = 0;
    refused = word ? strtoul(word, 0, 10) : 0;
    lasting = getenv("REFUSED_WHILE");
    told = getenv("REFUSED_TOLD");
}

/* Whether this is an address of a shared library. */
static int is_of_library(const void *address) {
    struct place place;
    return dladdr(address, &place) && strstr(place.file, ".so");
}

static void tell(const void *caller) {
    int is_library = is_of_library(caller);
    int file = open(told, TO_WRITE | TO_CREATE | TO_APPEND, 0600);
    if (file < 0) return;
    write(file, is_library ? "library\n" : "program\n", 8);
    close(file);
}

static void *refuse(void) {
    *__errno_location() = NO_MEMORY;
    return 0;
}

/* Whether an allocation is refused, for which this address asks. */
static int is_refused(const void *caller) {
    size_t number = __atomic_add_fetch(&taken, 1, __ATOMIC_SEQ_CST);
    if (number != refused && !(lasting && access(lasting, 0) == 0)) return 0;
    if (told) tell(caller);
    return 1;
}

#define IS_REFUSED is_refused(__builtin_return_address(0))

static void *begin_at(size_t number) {
    taken = 0;
    refused = number;
    return refuse();
}

static void *end(void) {
    int was_refused = refused != 0 && taken >= refused;
    refused = 0;
    return was_refused ? __libc_malloc(1) : refuse();
}

static void *mark(void) {
    grown = asked = held = 0;
    return refuse();
}

static void *tell_counts(void) {
    dprintf(2, "%zu %zu %ld\n", grown, asked, held);
    return refuse();
}

/* A block that was asked for, with so many bytes, where fewer were held before. */
static void *count(void *at, size_t size, size_t before) {
    size_t now = malloc_usable_size(at);
    if (now > before) {
        __atomic_add_fetch(&grown, 1, __ATOMIC_SEQ_CST);
        __atomic_add_fetch(&asked, size, __ATOMIC_SEQ_CST);
    }
    __atomic_add_fetch(&held, (long)now - (long)before, __ATOMIC_SEQ_CST);
    return at;
}

void *malloc(size_t size) {
    if (size >= BEGIN) return begin_at(size - BEGIN);
    if (size == END) return end();
    if (size == MARK) return mark();
    if (size == TELL) return tell_counts();
    return IS_REFUSED ? refuse() : count(__libc_malloc(size), size, 0);
}

void *calloc(size_t number, size_t size) {
    return IS_REFUSED ? refuse() : count(__libc_calloc(number, size), number * size, 0);
}

void *realloc(void *at, size_t size) {
    size_t before = malloc_usable_size(at);
    void *now = IS_REFUSED ? refuse() : __libc_realloc(at, size);
    return now ? count(now, size, before) : now;
}

void *aligned_alloc(size_t alignment, size_t size) {
    return IS_REFUSED ? refuse() : count(__libc_memalign(alignment, size), size, 0);
}

int posix_memalign(void **at, size_t alignment, size_t size) {
    if (IS_REFUSED) return NO_MEMORY;
    *at = count(__libc_memalign(alignment, size), size, 0);
    return *at ? 0 : NO_MEMORY;
}

void free(void *at) {
    __atomic_sub_fetch(&held, malloc_usable_size(at), __ATOMIC_SEQ_CST);
    __libc_free(at);
}
