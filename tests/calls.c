/* Loaded before the C library: notes each read and write that a program makes, one line a call, in the file that CALLS names. Where MOST is set, read and write
 * take no more bytes than it says. */
#define _GNU_SOURCE
#include <fcntl.h>
#include <stdio.h>
#include <stdlib.h>
#include <sys/syscall.h>
#include <sys/types.h>
#include <sys/uio.h>
#include <unistd.h>

static void note(const char *call, int file) {
    char line[32];
    const int length = snprintf(line, sizeof line, "%s %d\n", call, file);
    const int log = open(getenv("CALLS"), O_WRONLY | O_APPEND);
    if (log < 0 || syscall(SYS_write, log, line, length) != length) {
        abort();
    }
    close(log);
}

static size_t taken(size_t n) {
    const char *most = getenv("MOST");
    return most && strtoul(most, NULL, 10) < n ? strtoul(most, NULL, 10) : n;
}

ssize_t read(int file, void *bytes, size_t n) {
    note("read", file);
    return syscall(SYS_read, file, bytes, taken(n));
}

ssize_t write(int file, const void *bytes, size_t n) {
    note("write", file);
    return syscall(SYS_write, file, bytes, taken(n));
}

/* The name that Rattle's library writes by. */
ssize_t __write(int file, const void *bytes, size_t n) {
    return write(file, bytes, n);
}

ssize_t readv(int file, const struct iovec *parts, int n) {
    note("read", file);
    return syscall(SYS_readv, file, parts, n);
}

ssize_t writev(int file, const struct iovec *parts, int n) {
    note("write", file);
    return syscall(SYS_writev, file, parts, n);
}
