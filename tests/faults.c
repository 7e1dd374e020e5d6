/* Faults for a program's read and write, loaded before the C library: LD_PRELOAD=faults.so FAULTS_READ=script FAULTS_WRITE=script PROGRAM.
   Each call on a descriptor other than standard error takes the next letter of its script: `.` as it is, `1` one byte at most, `i` EINTR,
   `a` EAGAIN, `e` EIO, `0` nothing moved; past the script's end every call is as it is. */
#define _GNU_SOURCE
#include <dlfcn.h>
#include <errno.h>
#include <stdlib.h>
#include <unistd.h>

/* what the next call does: the most bytes that it may move, or -1 with errno set, or 0 for nothing */
static ssize_t next(const char *script, size_t *at, size_t count)
{
    switch (script && script[*at] ? script[(*at)++] : '.') {
    case '0': return 0;
    case '1': return count ? 1 : 0;
    case 'i': errno = EINTR; return -1;
    case 'a': errno = EAGAIN; return -1;
    case 'e': errno = EIO; return -1;
    default: return (ssize_t)count;
    }
}

ssize_t read(int fd, void *buf, size_t count)
{
    static size_t at;
    ssize_t most = fd == 2 ? (ssize_t)count : next(getenv("FAULTS_READ"), &at, count);
    ssize_t (*real)(int, void *, size_t) = (ssize_t(*)(int, void *, size_t))dlsym(RTLD_NEXT, "read");
    return most <= 0 ? most : real(fd, buf, (size_t)most);
}

ssize_t write(int fd, const void *buf, size_t count)
{
    static size_t at;
    ssize_t most = fd == 2 ? (ssize_t)count : next(getenv("FAULTS_WRITE"), &at, count);
    ssize_t (*real)(int, const void *, size_t) = (ssize_t(*)(int, const void *, size_t))dlsym(RTLD_NEXT, "write");
    return most <= 0 ? most : real(fd, buf, (size_t)most);
}
