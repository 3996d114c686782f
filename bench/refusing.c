/* Preloaded into octimap, this library refuses calls of the C library: the K-th call of a kind, or all from the K-th on.
 *
 * OCTIMAP_REFUSE    KIND K HOW ERRNO: the kind by its number below; the call, counted from 1, or 0 for none; `once` or `on`;
 *                   the errno, or 0 for a short transfer (of one byte), or -1 for a transfer of nothing.
 * OCTIMAP_COUNTS    a file of eight bytes for each kind, to which the numbers of calls are written as they come.
 * OCTIMAP_CALLS     a file that gets a line for each call but those for memory: KIND K NUMBER RESULT PATH; NUMBER is the
 *                   flags of an opening, and the descriptor of another call.
 *
 * Calls are counted from where main is about to begin. A refused close closes all the same, as Linux does it.
 */
#define _GNU_SOURCE
#include <errno.h>
#include <fcntl.h>
#include <stdarg.h>
#include <stdint.h>
#include <stdio.h>
#include <stdlib.h>
#include <string.h>
#include <sys/mman.h>
#include <sys/stat.h>
#include <sys/syscall.h>
#include <unistd.h>

enum { MEMORY, OPEN, READ, WRITE, CLOSE, RENAME, SYNC, LINK, REMOVE, STAT, MODE, RESOLVE, KINDS };

static int armed;
static int refused_kind = -1, on, code;
static uint64_t first;
static uint64_t own_counts[KINDS];
static uint64_t *counts = own_counts;
static int calls = -1;

extern void *__libc_malloc(size_t);
extern void *__libc_calloc(size_t, size_t);
extern void *__libc_realloc(void *, size_t);
extern void *__libc_memalign(size_t, size_t);

/* Whether this call of the kind is refused. */
static int refuses(int kind)
{
    if (!armed)
        return 0;
    uint64_t count = ++counts[kind];
    return kind == refused_kind && (on ? count >= first : count == first);
}

static long refuse(void)
{
    errno = code;
    return -1;
}

/* The result of a call, noted. */
static long noted(int kind, int number, const char *path, long result)
{
    char line[4400];
    int kept = errno;
    if (armed && calls >= 0) {
        int length = snprintf(line, sizeof line, "%d %lu %d %ld %s\n", kind, (unsigned long)counts[kind], number, result, path);
        syscall(SYS_write, calls, line, (size_t)length);
    }
    errno = kept;
    return result;
}

void *malloc(size_t size)
{
    if (refuses(MEMORY)) { errno = ENOMEM; return NULL; }
    return __libc_malloc(size);
}

void *calloc(size_t count, size_t size)
{
    if (refuses(MEMORY)) { errno = ENOMEM; return NULL; }
    return __libc_calloc(count, size);
}

void *realloc(void *old, size_t size)
{
    if (refuses(MEMORY)) { errno = ENOMEM; return NULL; }
    return __libc_realloc(old, size);
}

void *memalign(size_t align, size_t size)
{
    if (refuses(MEMORY)) { errno = ENOMEM; return NULL; }
    return __libc_memalign(align, size);
}

void *aligned_alloc(size_t align, size_t size)
{
    return memalign(align, size);
}

int posix_memalign(void **to, size_t align, size_t size)
{
    if (refuses(MEMORY))
        return ENOMEM;
    *to = __libc_memalign(align, size);
    return *to ? 0 : ENOMEM;
}

void *mmap(void *at, size_t size, int prot, int flags, int fd, off_t offset)
{
    if (refuses(MEMORY)) { errno = ENOMEM; return MAP_FAILED; }
    return (void *)syscall(SYS_mmap, at, size, prot, flags, fd, offset);
}

static int opened(int dir, const char *path, int flags, int mode)
{
    return noted(OPEN, flags, path, refuses(OPEN) ? refuse() : syscall(SYS_openat, dir, path, flags, mode));
}

int open(const char *path, int flags, ...)
{
    va_list rest;
    va_start(rest, flags);
    int mode = flags & (O_CREAT | O_TMPFILE) ? va_arg(rest, int) : 0;
    va_end(rest);
    return opened(AT_FDCWD, path, flags, mode);
}

int open64(const char *path, int flags, ...)
{
    va_list rest;
    va_start(rest, flags);
    int mode = flags & (O_CREAT | O_TMPFILE) ? va_arg(rest, int) : 0;
    va_end(rest);
    return opened(AT_FDCWD, path, flags, mode);
}

/* A transfer by a system call: as it is asked for, short, of nothing, or refused. */
static ssize_t moved(int kind, long number, int fd, void *bytes, size_t size)
{
    if (!refuses(kind))
        return noted(kind, fd, "", syscall(number, fd, bytes, size));
    if (code > 0)
        return noted(kind, fd, "", refuse());
    return noted(kind, fd, "", code < 0 ? 0 : syscall(number, fd, bytes, size > 1 ? 1 : size));
}

ssize_t read(int fd, void *into, size_t size)
{
    return moved(READ, SYS_read, fd, into, size);
}

ssize_t write(int fd, const void *from, size_t size)
{
    return moved(WRITE, SYS_write, fd, (void *)from, size);
}

ssize_t __write(int fd, const void *from, size_t size)
{
    return moved(WRITE, SYS_write, fd, (void *)from, size);
}

int close(int fd)
{
    int done = syscall(SYS_close, fd);
    return noted(CLOSE, fd, "", refuses(CLOSE) ? refuse() : done);
}

int rename(const char *from, const char *to)
{
    return noted(RENAME, 0, to, refuses(RENAME) ? refuse() : syscall(SYS_rename, from, to));
}

int fsync(int fd)
{
    return noted(SYNC, fd, "", refuses(SYNC) ? refuse() : syscall(SYS_fsync, fd));
}

int fdatasync(int fd)
{
    return noted(SYNC, fd, "", refuses(SYNC) ? refuse() : syscall(SYS_fdatasync, fd));
}

int link(const char *from, const char *to)
{
    return noted(LINK, 0, to, refuses(LINK) ? refuse() : syscall(SYS_link, from, to));
}

int unlink(const char *path)
{
    return noted(REMOVE, 0, path, refuses(REMOVE) ? refuse() : syscall(SYS_unlink, path));
}

int statx(int dir, const char *restrict path, int flags, unsigned mask, struct statx *restrict found)
{
    return noted(STAT, dir, path, refuses(STAT) ? refuse() : syscall(SYS_statx, dir, path, flags, mask, found));
}

int fchmod(int fd, mode_t mode)
{
    return noted(MODE, fd, "", refuses(MODE) ? refuse() : syscall(SYS_fchmod, fd, mode));
}

ssize_t readlink(const char *restrict path, char *restrict into, size_t size)
{
    return noted(RESOLVE, 0, path, refuses(RESOLVE) ? refuse() : syscall(SYS_readlink, path, into, size));
}

__attribute__((constructor)) static void arm(void)
{
    const char *refuse = getenv("OCTIMAP_REFUSE");
    const char *file = getenv("OCTIMAP_COUNTS");
    const char *log = getenv("OCTIMAP_CALLS");
    if (refuse) {
        char how[8] = "";
        sscanf(refuse, "%d %lu %7s %d", &refused_kind, &first, how, &code);
        on = strcmp(how, "on") == 0;
        if (first == 0)
            refused_kind = -1;
    }
    if (file) {
        int fd = syscall(SYS_openat, AT_FDCWD, file, O_RDWR, 0);
        void *shared = (void *)syscall(SYS_mmap, NULL, sizeof own_counts, PROT_READ | PROT_WRITE, MAP_SHARED, fd, 0);
        syscall(SYS_close, fd);
        if (shared != MAP_FAILED)
            counts = shared;
    }
    if (log)
        calls = syscall(SYS_openat, AT_FDCWD, log, O_WRONLY | O_APPEND | O_CREAT | O_CLOEXEC, 0600);
    armed = 1;
}
