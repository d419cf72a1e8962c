/* A library to be loaded before libc: chosen reads of standard input and writes of standard output and standard error go wrong, each
   once. FAULTS names them, as in "read:2:short,read:3:eintr": the call, read, write or say, which one from 1, or 0 for every one
   that is not named before it, and how: eio, eagain and eintr fail with that error, short moves 7 bytes at most and byte one. Each
   fault leaves an x on descriptor 9, so that a test sees that it happened. */
#define _GNU_SOURCE
#include <errno.h>
#include <stdio.h>
#include <stdlib.h>
#include <string.h>
#include <sys/syscall.h>
#include <unistd.h>

/* How call number n of this name goes wrong, or null. */
static const char *fault(const char *name, long n) {
    static char how[16];
    const char *list = getenv("FAULTS");
    while (list != NULL && *list != '\0') {
        char call[16];
        long which;
        if (sscanf(list, "%15[a-z]:%ld:%15[a-z]", call, &which, how) == 3 && (which == n || which == 0) && strcmp(call, name) == 0) {
            return how;
        }
        list = strchr(list, ',');
        if (list != NULL) {
            list++;
        }
    }
    return NULL;
}

/* The bytes that the call may move, or -1 where it fails. */
static long allowed(const char *name, long n, size_t size) {
    const char *how = fault(name, n);
    if (how == NULL) {
        return (long)size;
    }
    syscall(SYS_write, 9, "x", 1);
    if (strcmp(how, "short") == 0) {
        return size < 7 ? (long)size : 7;
    }
    if (strcmp(how, "byte") == 0) {
        return size < 1 ? 0 : 1;
    }
    errno = strcmp(how, "eintr") == 0 ? EINTR : strcmp(how, "eagain") == 0 ? EAGAIN : EIO;
    return -1;
}

ssize_t read(int descriptor, void *bytes, size_t size) {
    static long calls;
    long most = descriptor == 0 ? allowed("read", ++calls, size) : (long)size;
    return most < 0 ? -1 : syscall(SYS_read, descriptor, bytes, most);
}

ssize_t write(int descriptor, const void *bytes, size_t size) {
    static long writes, says;
    long most = (long)size;
    if (descriptor == 1) {
        most = allowed("write", ++writes, size);
    } else if (descriptor == 2) {
        most = allowed("say", ++says, size);
    }
    return most < 0 ? -1 : syscall(SYS_write, descriptor, bytes, most);
}
