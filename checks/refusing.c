/* Stands before the C library (LD_PRELOAD), and refuses a program what the environment says.
 *
 * A window opens where the program writes the line `call`, and closes at its next line; a second such line opens none. Where
 * REFUSE_EVERYWHERE is set the window is the whole run. Growths and threads that are asked for in it are counted, from 1:
 *
 *   REFUSE_GROWTH=N         refuses the Nth growth
 *   REFUSE_GROWTHS_FROM=N   that and all behind it
 *   REFUSE_THREADS=F-L      the threads from the Fth to the Lth
 *   REFUSE_WRITE=1          the first write to standard output, and no other
 *
 * Where the window closes, `growths G threads T refused R` is appended to the file that REFUSE_REPORT names: what was
 * asked for in it, and how much of that was refused.
 */
#define _GNU_SOURCE
#include <dlfcn.h>
#include <errno.h>
#include <fcntl.h>
#include <limits.h>
#include <pthread.h>
#include <stdatomic.h>
#include <stdio.h>
#include <stdlib.h>
#include <string.h>
#include <sys/syscall.h>
#include <unistd.h>

extern void *__libc_malloc(size_t);
extern void *__libc_calloc(size_t, size_t);
extern void *__libc_realloc(void *, size_t);
extern void *__libc_memalign(size_t, size_t);

static atomic_int is_open, was_open;
static atomic_long growths, threads, refused;
static long first_growth, last_growth, first_thread, last_thread;
static int is_everywhere, fails_write;
static atomic_int has_failed;

static long number_of(const char *name)
{
    const char *text = getenv(name);
    return text ? strtol(text, NULL, 10) : 0;
}

__attribute__((constructor)) static void begin(void)
{
    const char *span = getenv("REFUSE_THREADS");
    first_growth = last_growth = number_of("REFUSE_GROWTH");
    if (number_of("REFUSE_GROWTHS_FROM") > 0) {
        first_growth = number_of("REFUSE_GROWTHS_FROM");
        last_growth = LONG_MAX;
    }
    if (span != NULL)
        sscanf(span, "%ld-%ld", &first_thread, &last_thread);
    is_everywhere = getenv("REFUSE_EVERYWHERE") != NULL;
    fails_write = getenv("REFUSE_WRITE") != NULL;
    atomic_store(&is_open, is_everywhere);
}

/* Says what was asked for, and how much of it was refused. */
static void report(void)
{
    const char *path = getenv("REFUSE_REPORT");
    char line[96];
    int file, length;
    if (path == NULL)
        return;
    length = snprintf(line, sizeof line, "growths %ld threads %ld refused %ld\n", atomic_load(&growths),
                      atomic_load(&threads), atomic_load(&refused));
    file = open(path, O_WRONLY | O_CREAT | O_APPEND, 0644);
    if (file < 0 || syscall(SYS_write, file, line, (size_t)length) != length)
        abort();
    close(file);
}

/* Whether this growth is one that is refused. */
static int is_refused(void)
{
    long number;
    if (!atomic_load(&is_open))
        return 0;
    number = atomic_fetch_add(&growths, 1) + 1;
    if (number < first_growth || number > last_growth)
        return 0;
    atomic_fetch_add(&refused, 1);
    errno = ENOMEM;
    return 1;
}

void *malloc(size_t size)
{
    return is_refused() ? NULL : __libc_malloc(size);
}

void *calloc(size_t count, size_t size)
{
    return is_refused() ? NULL : __libc_calloc(count, size);
}

void *realloc(void *old, size_t size)
{
    return is_refused() ? NULL : __libc_realloc(old, size);
}

void *aligned_alloc(size_t alignment, size_t size)
{
    return is_refused() ? NULL : __libc_memalign(alignment, size);
}

int posix_memalign(void **place, size_t alignment, size_t size)
{
    void *found = is_refused() ? NULL : __libc_memalign(alignment, size);
    if (found == NULL)
        return ENOMEM;
    *place = found;
    return 0;
}

int pthread_create(pthread_t *thread, const pthread_attr_t *how, void *(*run)(void *), void *with)
{
    static int (*started)(pthread_t *, const pthread_attr_t *, void *(*)(void *), void *);
    long number;
    if (atomic_load(&is_open)) {
        number = atomic_fetch_add(&threads, 1) + 1;
        if (number >= first_thread && number <= last_thread) {
            atomic_fetch_add(&refused, 1);
            return EAGAIN;
        }
    }
    if (started == NULL)
        *(void **)&started = dlsym(RTLD_NEXT, "pthread_create");
    return started(thread, how, run, with);
}

ssize_t write(int file, const void *bytes, size_t count)
{
    if (!is_everywhere && atomic_exchange(&is_open, 0))
        report();
    if (!is_everywhere && count == 5 && memcmp(bytes, "call\n", 5) == 0 && !atomic_exchange(&was_open, 1))
        atomic_store(&is_open, 1);
    if (fails_write && file == STDOUT_FILENO && !atomic_exchange(&has_failed, 1)) {
        errno = EIO;
        return -1;
    }
    return syscall(SYS_write, file, bytes, count);
}

void _exit(int status)
{
    if (is_everywhere)
        report();
    for (;;)
        syscall(SYS_exit_group, status);
}
