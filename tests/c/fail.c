/* Loaded before nib by LD_PRELOAD: makes the n-th call of one kind fail. NIB_FAIL is KIND:N:ERRNO, where KIND is fsync, rename, create (an
 * open that may make a file), write (to a file), out (a write to standard output), read (of standard input) or short (a write to a
 * file that takes half of the bytes, with no error). */
#define _GNU_SOURCE
#include <dlfcn.h>
#include <errno.h>
#include <fcntl.h>
#include <stdarg.h>
#include <stdio.h>
#include <stdlib.h>
#include <string.h>
#include <sys/types.h>
#include <unistd.h>

static int due(const char *kind)
{
    static int calls;
    const char *asked = getenv("NIB_FAIL");
    size_t n = strlen(kind);
    if (asked == NULL || strncmp(asked, kind, n) != 0 || asked[n] != ':')
        return 0;
    char *end;
    long nth = strtol(asked + n + 1, &end, 10);
    if (++calls != nth)
        return 0;
    errno = (int)strtol(end + 1, NULL, 10);
    return 1;
}

#define REAL(type, name, ...) ((type (*)(__VA_ARGS__))dlsym(RTLD_NEXT, #name))

int fsync(int fd) { return due("fsync") ? -1 : REAL(int, fsync, int)(fd); }

int rename(const char *from, const char *to) { return due("rename") ? -1 : REAL(int, rename, const char *, const char *)(from, to); }

ssize_t write(int fd, const void *bytes, size_t n)
{
    if (fd > 2 ? due("write") : fd == 1 && due("out"))
        return -1;
    if (fd > 2 && n > 1 && due("short"))
        n /= 2;
    return REAL(ssize_t, write, int, const void *, size_t)(fd, bytes, n);
}

ssize_t read(int fd, void *bytes, size_t n) { return fd == 0 && due("read") ? -1 : REAL(ssize_t, read, int, void *, size_t)(fd, bytes, n); }

int open(const char *path, int flags, ...)
{
    va_list more;
    va_start(more, flags);
    int mode = flags & O_CREAT ? va_arg(more, int) : 0;
    va_end(more);
    return flags & O_CREAT && due("create") ? -1 : REAL(int, open, const char *, int, ...)(path, flags, mode);
}
