/* A preloaded library that refuses growths of memory, as a system without memory does.
 *
 *   REFUSE_GROWTH=K           the Kth growth of the program is refused, counted from 1
 *   REFUSE_FORM=alone|from    that growth alone, or it and all later ones
 *   REFUSE_COUNTS=FILE        at its end the program leaves here `growths N refused M`
 *   REFUSE_WRITES=FILE        and here, at each write to standard output, `growths N bytes M`
 *
 * A growth is a call of malloc, calloc, realloc, reallocarray, posix_memalign, aligned_alloc, memalign
 * or valloc, or of mmap or mremap for memory of no file. Those before `main` do not count. Any number
 * of threads may grow at once. Build: cc -shared -fPIC -o fail_alloc.so fail_alloc.c -ldl
 */
#define _GNU_SOURCE
#include <dlfcn.h>
#include <errno.h>
#include <fcntl.h>
#include <stdarg.h>
#include <stddef.h>
#include <stdlib.h>
#include <string.h>
#include <sys/mman.h>
#include <sys/syscall.h>
#include <unistd.h>

typedef int Main(int, char **, char **);
typedef int StartMain(Main *, int, char **, void (*)(void), void (*)(void), void (*)(void), void *);

static void *(*real_malloc)(size_t);
static void *(*real_calloc)(size_t, size_t);
static void *(*real_realloc)(void *, size_t);
static int (*real_posix_memalign)(void **, size_t, size_t);
static void *(*real_aligned_alloc)(size_t, size_t);
static void *(*real_memalign)(size_t, size_t);
static void *(*real_mmap)(void *, size_t, int, int, int, off_t);
static void *(*real_mremap)(void *, size_t, size_t, int, ...);

static Main *program;
static long refused_from, refused_to; /* the growths that are refused; none where both are 0 */
static long growths, refused;
static int counting;
static int writes = -1; /* the file that is told of writes */

/* What the loader takes before the real functions are known. It is never given back. */
static char early[65536];
static size_t early_used;

static void *take_early(size_t size)
{
    size_t at = (early_used + 15) & ~(size_t)15;
    if (size > sizeof early - at)
        return NULL;
    early_used = at + size;
    return early + at;
}

static int is_early(void *block)
{
    return (char *)block >= early && (char *)block < early + sizeof early;
}

/* Counts a growth, and tells whether it is refused. */
static int is_refused(void)
{
    if (!counting)
        return 0;
    long number = __atomic_add_fetch(&growths, 1, __ATOMIC_SEQ_CST);
    if (number < refused_from || number > refused_to)
        return 0;
    __atomic_add_fetch(&refused, 1, __ATOMIC_SEQ_CST);
    errno = ENOMEM;
    return 1;
}

void *malloc(size_t size)
{
    if (!real_malloc)
        return take_early(size);
    return is_refused() ? NULL : real_malloc(size);
}

void *calloc(size_t count, size_t size)
{
    if (!real_calloc)
        return take_early(count * size);
    return is_refused() ? NULL : real_calloc(count, size);
}

void *realloc(void *block, size_t size)
{
    if (is_early(block)) {
        void *moved = malloc(size);
        size_t room = (size_t)(early + sizeof early - (char *)block);
        return moved ? memcpy(moved, block, size < room ? size : room) : NULL;
    }
    return is_refused() ? NULL : real_realloc(block, size);
}

void *reallocarray(void *block, size_t count, size_t size)
{
    size_t all;
    if (__builtin_mul_overflow(count, size, &all)) {
        errno = ENOMEM;
        return NULL;
    }
    return realloc(block, all);
}

void free(void *block)
{
    static void (*real_free)(void *);
    if (is_early(block))
        return;
    if (!real_free)
        real_free = (void (*)(void *))dlsym(RTLD_NEXT, "free");
    real_free(block);
}

int posix_memalign(void **block, size_t alignment, size_t size)
{
    return is_refused() ? ENOMEM : real_posix_memalign(block, alignment, size);
}

void *aligned_alloc(size_t alignment, size_t size)
{
    return is_refused() ? NULL : real_aligned_alloc(alignment, size);
}

void *memalign(size_t alignment, size_t size)
{
    return is_refused() ? NULL : real_memalign(alignment, size);
}

void *valloc(size_t size)
{
    return memalign((size_t)sysconf(_SC_PAGESIZE), size);
}

void *mmap(void *at, size_t size, int protection, int flags, int file, off_t from)
{
    if ((flags & MAP_ANONYMOUS) && is_refused())
        return MAP_FAILED;
    return real_mmap(at, size, protection, flags, file, from);
}

void *mmap64(void *at, size_t size, int protection, int flags, int file, off_t from)
{
    return mmap(at, size, protection, flags, file, from);
}

void *mremap(void *at, size_t old_size, size_t size, int flags, ...)
{
    va_list more;
    va_start(more, flags);
    void *to = flags & MREMAP_FIXED ? va_arg(more, void *) : NULL;
    va_end(more);
    if (is_refused())
        return MAP_FAILED;
    return real_mremap(at, old_size, size, flags, to);
}

__attribute__((constructor)) static void find_real(void)
{
    real_calloc = (void *(*)(size_t, size_t))dlsym(RTLD_NEXT, "calloc");
    real_malloc = (void *(*)(size_t))dlsym(RTLD_NEXT, "malloc");
    real_realloc = (void *(*)(void *, size_t))dlsym(RTLD_NEXT, "realloc");
    real_posix_memalign = (int (*)(void **, size_t, size_t))dlsym(RTLD_NEXT, "posix_memalign");
    real_aligned_alloc = (void *(*)(size_t, size_t))dlsym(RTLD_NEXT, "aligned_alloc");
    real_memalign = (void *(*)(size_t, size_t))dlsym(RTLD_NEXT, "memalign");
    real_mmap = (void *(*)(void *, size_t, int, int, int, off_t))dlsym(RTLD_NEXT, "mmap");
    real_mremap = (void *(*)(void *, size_t, size_t, int, ...))dlsym(RTLD_NEXT, "mremap");
}

/* Puts a word and a number behind what is there. */
static char *put(char *at, const char *word, long number)
{
    char digits[24], *digit = digits + sizeof digits;
    at = stpcpy(at, word);
    do
        *--digit = (char)('0' + number % 10);
    while (number /= 10);
    size_t count = (size_t)(digits + sizeof digits - digit);
    return (char *)memcpy(at, digit, count) + count;
}

/* Leaves a line of two words and their numbers. */
static long tell(int file, const char *word, long number, const char *other, long more)
{
    char line[96], *end = stpcpy(put(put(line, word, number), other, more), "\n");
    return syscall(SYS_write, file, line, (size_t)(end - line));
}

ssize_t write(int file, const void *bytes, size_t count)
{
    if (file == STDOUT_FILENO && writes >= 0)
        tell(writes, "growths ", __atomic_load_n(&growths, __ATOMIC_SEQ_CST), " bytes ", (long)count);
    return syscall(SYS_write, file, bytes, count);
}

ssize_t __write(int file, const void *bytes, size_t count) __attribute__((alias("write")));

static void leave(int status)
{
    for (;;)
        syscall(SYS_exit_group, status);
}

static void tell_counts(void)
{
    const char *path = getenv("REFUSE_COUNTS");
    int file = path ? open(path, O_WRONLY | O_CREAT | O_TRUNC, 0644) : -1;
    counting = 0;
    if (file < 0)
        return;
    if (tell(file, "growths ", growths, " refused ", refused) < 0)
        leave(99);
    close(file);
}

/* A program of threads ends so, which calls nothing of `atexit`. */
void _exit(int status)
{
    tell_counts();
    leave(status);
    __builtin_unreachable();
}

static int counted_main(int count, char **words, char **environment)
{
    counting = 1;
    return program(count, words, environment);
}

int __libc_start_main(Main *start, int count, char **words, void (*first)(void), void (*last)(void),
                      void (*loader_last)(void), void *stack)
{
    StartMain *real = (StartMain *)dlsym(RTLD_NEXT, "__libc_start_main");
    const char *growth = getenv("REFUSE_GROWTH"), *form = getenv("REFUSE_FORM"), *path = getenv("REFUSE_WRITES");
    if (path)
        writes = open(path, O_WRONLY | O_CREAT | O_TRUNC | O_CLOEXEC, 0644);
    refused_from = growth ? atol(growth) : 0;
    refused_to = form && !strcmp(form, "from") ? (refused_from ? __LONG_MAX__ : 0) : refused_from;
    program = start;
    atexit(tell_counts);
    return real(counted_main, count, words, first, last, loader_last, stack);
}
