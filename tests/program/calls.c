/* Loaded before the C library: counts the program's calls of each kind, lets some of them fail, and has reads and writes move few bytes.
   The environment says how:
     CALLS=FILE   where the counts stand, 8 bytes for each kind in the order below, also while the program runs, and after them how many
                  threads were made in each phase: one begins where a thread is made while there is none but the first. FILE.failed is
                  made once a call has failed, and has the path of its file, if it is of one
     FAIL=KIND:N  the call of this kind with this number fails, from 1 on; with N+ it and all later ones. A file that is made new is of
                  the kind `create`, any other that is opened of the kind `open`
     CAUSE=N      the error number that it fails with; 0 has a write take nothing, `before` ends the process in place of the call,
                  `after` once the call was made, and `stop` stops the process before the call, which is made once it goes on
     MOST=N       a read or a write moves at most N bytes
     LOCKLESS=N   each lock fails with this error number, as on a disk without locks */
#define _GNU_SOURCE
#include <dlfcn.h>
#include <errno.h>
#include <fcntl.h>
#include <pthread.h>
#include <signal.h>
#include <stdarg.h>
#include <stdatomic.h>
#include <stddef.h>
#include <stdio.h>
#include <stdlib.h>
#include <string.h>
#include <sys/mman.h>
#include <sys/stat.h>
#include <sys/syscall.h>
#include <unistd.h>

enum kind { GROWTH, THREAD, READ, WRITE, OPEN, RENAME, REMOVE, STAT, CLOSE, LOCK, LIST, CREATE, SYNC, KINDS };
enum { PHASES = 64, PLACES = KINDS + PHASES };
static const char *const names[KINDS] = {"growth", "thread", "read", "write", "open", "rename", "remove", "stat",
                                         "close", "lock", "list", "create", "sync"};

extern void *__libc_malloc(size_t);
extern void *__libc_calloc(size_t, size_t);
extern void *__libc_realloc(void *, size_t);
typedef int create_thread(pthread_t *, const pthread_attr_t *, void *(*)(void *), void *);
typedef int join_thread(pthread_t, void **);

static atomic_long own_counts[PLACES], *counts = own_counts, there;
static atomic_int phase = -1;
static long failing[KINDS], most = 1L << 30;
static char failed_file[4096];
static int cause = EIO, lockless, ends_before, ends_after, stops, and_later, is_ready;
static _Thread_local int is_last;
static create_thread *next_create;
static join_thread *next_join;

__attribute__((constructor)) static void begin(void)
{
    const char *file = getenv("CALLS"), *fail = getenv("FAIL"), *number;
    if (file != NULL) {
        snprintf(failed_file, sizeof failed_file, "%s.failed", file);
        int fd = syscall(SYS_openat, AT_FDCWD, file, O_RDWR | O_CREAT, 0600);
        if (fd < 0 || ftruncate(fd, sizeof own_counts) != 0)
            abort();
        counts = mmap(NULL, sizeof own_counts, PROT_READ | PROT_WRITE, MAP_SHARED, fd, 0);
        if (counts == MAP_FAILED)
            abort();
        syscall(SYS_close, fd);
    }
    for (int kind = 0; fail != NULL && kind < KINDS; kind++) {
        size_t len = strlen(names[kind]);
        if (strncmp(fail, names[kind], len) == 0 && fail[len] == ':') {
            failing[kind] = atol(fail + len + 1);
            and_later = strchr(fail, '+') != NULL;
        }
    }
    if ((number = getenv("CAUSE")) != NULL) {
        cause = atoi(number);
        ends_before = strcmp(number, "before") == 0;
        ends_after = strcmp(number, "after") == 0;
        stops = strcmp(number, "stop") == 0;
    }
    if ((number = getenv("MOST")) != NULL)
        most = atol(number);
    if ((number = getenv("LOCKLESS")) != NULL)
        lockless = atoi(number);
    next_create = (create_thread *)dlsym(RTLD_NEXT, "pthread_create");
    next_join = (join_thread *)dlsym(RTLD_NEXT, "pthread_join");
    is_ready = 1;
}

/* The path of the call that fails now: of an open file, the one that it was opened by. */
static void keep_failed(int fd, const char *path)
{
    char opened[64], found[4096];
    long len = 0;
    if (path != NULL) {
        len = strlen(path);
    } else if (fd >= 0) {
        snprintf(opened, sizeof opened, "/proc/self/fd/%d", fd);
        len = syscall(SYS_readlinkat, AT_FDCWD, opened, found, sizeof found);
        path = found;
    }
    int kept = syscall(SYS_openat, AT_FDCWD, failed_file, O_WRONLY | O_CREAT | O_TRUNC, 0600);
    if (len > 0)
        syscall(SYS_write, kept, path, len);
    syscall(SYS_close, kept);
}

static int fails_of(enum kind kind, int fd, const char *path)
{
    if (!is_ready)
        return 0;
    long number = atomic_fetch_add(&counts[kind], 1) + 1;
    if (failing[kind] == 0 || number < failing[kind] || (number > failing[kind] && !and_later))
        return 0;
    keep_failed(fd, path);
    if (ends_before)
        kill(getpid(), SIGKILL);
    if (stops)
        kill(getpid(), SIGSTOP);
    is_last = ends_after;
    return !ends_after && !stops;
}

static int fails(enum kind kind) { return fails_of(kind, -1, NULL); }

/* What a call answers that was made; the process ends here where it was the last. */
static long made(long answer)
{
    if (is_last)
        kill(getpid(), SIGKILL);
    return answer;
}

static int told(int error)
{
    errno = error;
    return -1;
}

void *malloc(size_t size)
{
    return fails(GROWTH) ? (errno = ENOMEM, NULL) : __libc_malloc(size);
}

void *calloc(size_t count, size_t size)
{
    return fails(GROWTH) ? (errno = ENOMEM, NULL) : __libc_calloc(count, size);
}

void *realloc(void *old, size_t size)
{
    return fails(GROWTH) ? (errno = ENOMEM, NULL) : __libc_realloc(old, size);
}

int pthread_create(pthread_t *thread, const pthread_attr_t *attributes, void *(*run)(void *), void *argument)
{
    if (fails(THREAD))
        return EAGAIN;
    if (atomic_fetch_add(&there, 1) == 0)
        atomic_fetch_add(&phase, 1);
    if (phase < PHASES)
        atomic_fetch_add(&counts[KINDS + phase], 1);
    int error = next_create(thread, attributes, run, argument);
    if (error != 0)
        atomic_fetch_sub(&there, 1);
    return error;
}

int pthread_join(pthread_t thread, void **value)
{
    int error = next_join(thread, value);
    atomic_fetch_sub(&there, 1);
    return error;
}

ssize_t read(int fd, void *bytes, size_t len)
{
    return fails_of(READ, fd, NULL) ? told(cause) : made(syscall(SYS_read, fd, bytes, len < (size_t)most ? len : (size_t)most));
}

ssize_t pread(int fd, void *bytes, size_t len, off_t offset)
{
    return fails_of(READ, fd, NULL) ? told(cause) : made(syscall(SYS_pread64, fd, bytes, len < (size_t)most ? len : (size_t)most, offset));
}

ssize_t write(int fd, const void *bytes, size_t len)
{
    if (fails_of(WRITE, fd, NULL))
        return cause == 0 ? 0 : told(cause);
    return made(syscall(SYS_write, fd, bytes, len < (size_t)most ? len : (size_t)most));
}

int open(const char *path, int flags, ...)
{
    va_list more;
    va_start(more, flags);
    int mode = va_arg(more, int);
    va_end(more);
    return fails_of(flags & O_CREAT ? CREATE : OPEN, -1, path) ? told(cause) : (int)made(syscall(SYS_openat, AT_FDCWD, path, flags, mode));
}

int openat(int folder, const char *path, int flags, ...)
{
    va_list more;
    va_start(more, flags);
    int mode = va_arg(more, int);
    va_end(more);
    return fails_of(flags & O_CREAT ? CREATE : OPEN, -1, path) ? told(cause) : (int)made(syscall(SYS_openat, folder, path, flags, mode));
}

ssize_t getdents64(int fd, void *entries, size_t len)
{
    return fails_of(LIST, fd, NULL) ? told(cause) : made(syscall(SYS_getdents64, fd, entries, len));
}

int flock(int fd, int how)
{
    if (fails_of(LOCK, fd, NULL))
        return told(cause);
    return lockless != 0 ? told(lockless) : (int)made(syscall(SYS_flock, fd, how));
}

int rename(const char *from, const char *to)
{
    return fails_of(RENAME, -1, to) ? told(cause) : (int)made(syscall(SYS_rename, from, to));
}

int unlink(const char *path)
{
    return fails_of(REMOVE, -1, path) ? told(cause) : (int)made(syscall(SYS_unlink, path));
}

int unlinkat(int folder, const char *path, int flags)
{
    return fails_of(REMOVE, -1, path) ? told(cause) : (int)made(syscall(SYS_unlinkat, folder, path, flags));
}

int statx(int folder, const char *path, int flags, unsigned mask, struct statx *file)
{
    return fails_of(STAT, folder, *path == '\0' ? NULL : path) ? told(cause) : (int)made(syscall(SYS_statx, folder, path, flags, mask, file));
}

int fsync(int fd)
{
    return fails_of(SYNC, fd, NULL) ? told(cause) : (int)made(syscall(SYS_fsync, fd));
}

int fdatasync(int fd)
{
    return fails_of(SYNC, fd, NULL) ? told(cause) : (int)made(syscall(SYS_fdatasync, fd));
}

int close(int fd)
{
    return fails_of(CLOSE, fd, NULL) ? told(cause) : (int)made(syscall(SYS_close, fd));
}
