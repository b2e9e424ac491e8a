/* Stands between a program and the C library (LD_PRELOAD) and has calls of one kind refused, from the first to the last that the
   program makes. It needs no header, so that the compiler alone builds it: the few declarations below are those of glibc.

   FAILING_KIND   what is refused: `alloc` (malloc, calloc, realloc, posix_memalign and their like), `read`, `write`;
                  `thread` (pthread_create), and `own` the allocations of the threads that are started by it alone;
                  `short` has a read or a write of several octets move one; `eintr` has one interrupted before it moved any.
   FAILING_AT     the number of the first call that is refused, from 1; 0 refuses none.
   FAILING_COUNT  how many calls from that one on are refused; 0 for all.
   FAILING_TOLD   a file into which the number of calls of the kind is written at the end, 8 octets, the least first.

   Calls are counted from `main` on: what is allocated before it is the C library's own. Reads and writes are counted of each
   descriptor but that for FAILING_TOLD, standard error's among them. */

typedef unsigned long size_t;
typedef long ssize_t;

extern char *getenv(const char *);
extern int *__errno_location(void);
extern long syscall(long, ...);
extern void *__libc_malloc(size_t);
extern void *__libc_calloc(size_t, size_t);
extern void *__libc_realloc(void *, size_t);
extern void *__libc_memalign(size_t, size_t);
extern void *dlsym(void *, const char *);
extern int strcmp(const char *, const char *);

enum { SYS_READ = 0, SYS_WRITE = 1, SYS_OPEN = 2, SYS_WRITEV = 20, SYS_GETPID = 39, SYS_GETTID = 186, SYS_EXIT_GROUP = 231 };
enum { CREATE_FOR_WRITING = 01 | 0100 | 01000 };
enum { EINTR = 4, EIO = 5, EAGAIN = 11, ENOMEM = 12 };

struct piece {
    void *base;
    size_t length;
};

enum kind { NONE, ALLOC, OWN, THREAD, READ, WRITE, SHORT, INTERRUPTED };
static const char *const names[] = {"none", "alloc", "own", "thread", "read", "write", "short", "eintr"};
static enum kind kind;
static unsigned long first, count, calls;
static const char *told;

static unsigned long number(const char *name)
{
    const char *text = getenv(name);
    unsigned long value = 0;
    for (; text && *text >= '0' && *text <= '9'; text++)
        value = value * 10 + (unsigned long)(*text - '0');
    return value;
}

__attribute__((constructor)) static void begin(void)
{
    const char *given = getenv("FAILING_KIND");
    first = number("FAILING_AT");
    count = number("FAILING_COUNT");
    told = getenv("FAILING_TOLD");
    if (!given)
        return;
    for (enum kind it = ALLOC; it <= INTERRUPTED; it++)
        if (!strcmp(given, names[it]))
            kind = it;
}

__attribute__((destructor)) static void end(void)
{
    unsigned long made = calls;
    if (!told)
        return;
    kind = NONE;
    long to = syscall(SYS_OPEN, told, CREATE_FOR_WRITING, 0600);
    if (to >= 0)
        syscall(SYS_WRITE, to, &made, sizeof made);
}

/* The program of a crate's tests ends by this, and so without destructors. */
__attribute__((noreturn)) void _exit(int status)
{
    end();
    syscall(SYS_EXIT_GROUP, (long)status);
    __builtin_unreachable();
}

/* Whether this call, of one of the kinds, is refused. Threads count together. */
static int is_refused(void)
{
    unsigned long at = __atomic_add_fetch(&calls, 1, __ATOMIC_RELAXED);
    return first && at >= first && (!count || at < first + count);
}

/* Whether the allocations of this thread are counted: of all threads, or of those that the first one started. */
static int is_meant(void)
{
    return kind == ALLOC || (kind == OWN && syscall(SYS_GETTID) != syscall(SYS_GETPID));
}

static int has_no_memory(void)
{
    if (!is_meant() || !is_refused())
        return 0;
    *__errno_location() = ENOMEM;
    return 1;
}

void *malloc(size_t size)
{
    return has_no_memory() ? 0 : __libc_malloc(size);
}

void *calloc(size_t number_of, size_t size)
{
    return has_no_memory() ? 0 : __libc_calloc(number_of, size);
}

void *realloc(void *old, size_t size)
{
    return has_no_memory() ? 0 : __libc_realloc(old, size);
}

void *memalign(size_t alignment, size_t size)
{
    return has_no_memory() ? 0 : __libc_memalign(alignment, size);
}

void *aligned_alloc(size_t alignment, size_t size)
{
    return memalign(alignment, size);
}

int posix_memalign(void **to, size_t alignment, size_t size)
{
    void *found = memalign(alignment, size);
    if (found)
        *to = found;
    return found ? 0 : ENOMEM;
}

typedef void *running(void *);
typedef int starting(void *, const void *, running *, void *);

int pthread_create(void *to, const void *attributes, running *run, void *given)
{
    if (kind == THREAD && is_refused())
        return EAGAIN;
    starting *next = (starting *)dlsym((void *)-1, "pthread_create"); /* of the library behind this one */
    return next(to, attributes, run, given);
}

/* How many octets a read or a write may move, of so many that it asks for, or -1 with the error set. */
static ssize_t moves(enum kind own, size_t asked)
{
    if (kind == own && is_refused()) {
        *__errno_location() = EIO;
        return -1;
    }
    if (kind == INTERRUPTED && is_refused()) {
        *__errno_location() = EINTR;
        return -1;
    }
    if (kind == SHORT && asked > 1 && is_refused())
        return 1;
    return (ssize_t)asked;
}

ssize_t read(int from, void *to, size_t asked)
{
    ssize_t length = moves(READ, asked);
    return length < 0 ? -1 : syscall(SYS_READ, from, to, length);
}

ssize_t write(int to, const void *from, size_t asked)
{
    ssize_t length = moves(WRITE, asked);
    return length < 0 ? -1 : syscall(SYS_WRITE, to, from, length);
}

ssize_t writev(int to, const struct piece *pieces, int number_of)
{
    size_t asked = 0;
    for (int at = 0; at < number_of; at++)
        asked += pieces[at].length;
    ssize_t length = moves(WRITE, asked);
    if (length < 0)
        return -1;
    if ((size_t)length == asked)
        return syscall(SYS_WRITEV, to, pieces, number_of);
    for (int at = 0; at < number_of; at++)
        if (pieces[at].length)
            return syscall(SYS_WRITE, to, pieces[at].base, length);
    return 0;
}
