/* Loaded before the C library: refuses calls of one kind, or lets each read and write move one byte.
 *
 * REFUSE_ALLOCATION=N, REFUSE_THREAD=N, REFUSE_READ=N, REFUSE_WRITE=N: the Nth such call fails, counted from 1 over all threads,
 * and with FROM_THEN_ON=1 each later one too. Reads and writes of files 0, 1 and 3 upwards count, those of standard error don't.
 * ONE_BYTE=1: each read and write moves one byte.
 * CALLS=FILE: at the end the counts of allocations, thread starts, reads and writes are written to the file, and then how many calls
 * were refused, how many of these on a thread that isn't the first, and how many allocations were made on such threads.
 */
#define _GNU_SOURCE
#include <dlfcn.h>
#include <errno.h>
#include <fcntl.h>
#include <pthread.h>
#include <stdio.h>
#include <stdlib.h>
#include <sys/syscall.h>
#include <unistd.h>

void *__libc_malloc(size_t size);
void *__libc_calloc(size_t count, size_t size);
void *__libc_realloc(void *old, size_t size);
void *__libc_memalign(size_t alignment, size_t size);

static _Atomic long allocations, threads, reads, writes, refused, refused_beside, allocations_beside;

static long wanted(const char *name)
{
    const char *value = getenv(name);
    return value ? strtol(value, 0, 10) : 0;
}

static int is_beside(void) { return gettid() != getpid(); }

/* Whether the call with this number is refused. */
static int is_refused(const char *name, long number)
{
    long first = wanted(name);
    if (!first || number < first || (number > first && !wanted("FROM_THEN_ON")))
        return 0;
    ++refused;
    if (is_beside())
        ++refused_beside;
    return 1;
}

static int refused_allocation(void)
{
    if (is_beside())
        ++allocations_beside;
    if (!is_refused("REFUSE_ALLOCATION", ++allocations))
        return 0;
    errno = ENOMEM;
    return 1;
}

void *malloc(size_t size) { return refused_allocation() ? 0 : __libc_malloc(size); }

void *calloc(size_t count, size_t size) { return refused_allocation() ? 0 : __libc_calloc(count, size); }

void *realloc(void *old, size_t size) { return refused_allocation() ? 0 : __libc_realloc(old, size); }

void *aligned_alloc(size_t alignment, size_t size)
{
    return refused_allocation() ? 0 : __libc_memalign(alignment, size);
}

int posix_memalign(void **out, size_t alignment, size_t size)
{
    if (refused_allocation())
        return ENOMEM;
    *out = __libc_memalign(alignment, size);
    return *out ? 0 : ENOMEM;
}

int pthread_create(pthread_t *thread, const pthread_attr_t *attributes, void *(*start)(void *), void *argument)
{
    int (*create)(pthread_t *, const pthread_attr_t *, void *(*)(void *), void *) = dlsym(RTLD_NEXT, "pthread_create");
    return is_refused("REFUSE_THREAD", ++threads) ? EAGAIN : create(thread, attributes, start, argument);
}

static size_t moved(size_t size) { return wanted("ONE_BYTE") && size > 1 ? 1 : size; }

ssize_t read(int file, void *buffer, size_t size)
{
    if (is_refused("REFUSE_READ", ++reads)) {
        errno = EIO;
        return -1;
    }
    return syscall(SYS_read, file, buffer, moved(size));
}

ssize_t write(int file, const void *buffer, size_t size)
{
    if (file == 2)
        return syscall(SYS_write, file, buffer, size);
    if (is_refused("REFUSE_WRITE", ++writes)) {
        errno = EIO;
        return -1;
    }
    return syscall(SYS_write, file, buffer, moved(size));
}

static void write_counts(void)
{
    const char *name = getenv("CALLS");
    char line[160];
    int file, length;
    if (!name)
        return;
    length = snprintf(line, sizeof line, "%ld %ld %ld %ld %ld %ld %ld\n", allocations, threads, reads, writes, refused, refused_beside,
                      allocations_beside);
    file = open(name, O_WRONLY | O_CREAT | O_TRUNC, 0600);
    syscall(SYS_write, file, line, (size_t)length);
    close(file);
}

/* A program with threads ends by this call, which runs no destructors. */
void _exit(int status)
{
    write_counts();
    syscall(SYS_exit_group, status);
    __builtin_unreachable();
}
