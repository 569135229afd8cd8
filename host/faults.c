/*
 * Stands between the example host and the system (ld --wrap), so that a call to it fails. The variable FAULT
 * names the call, which of its times is meant, and what happens then: short writes half of the bytes, end
 * ends the program before the call as a kill would, and a number is the error that the call gives.
 */
#define _XOPEN_SOURCE 700

#include <errno.h>
#include <stdio.h>
#include <stdlib.h>
#include <string.h>
#include <sys/types.h>
#include <unistd.h>

ssize_t __real_write(int file, const void *bytes, size_t length);
ssize_t __real_pwrite(int file, const void *bytes, size_t length, off_t at);
int __real_fchmod(int file, mode_t mode);
int __real_fsync(int file);
int __real_close(int file);
int __real_rename(const char *from, const char *to);

ssize_t __wrap_write(int file, const void *bytes, size_t length);
ssize_t __wrap_pwrite(int file, const void *bytes, size_t length, off_t at);
int __wrap_fchmod(int file, mode_t mode);
int __wrap_fsync(int file);
int __wrap_close(int file);
int __wrap_rename(const char *from, const char *to);

/* 0 where a call is to be made; 1 where it is to be made by half; -1 and errno where it fails. */
static int fault(const char *call, unsigned *times) {
    const char *asked = getenv("FAULT");
    char name[8], what[8];
    unsigned time;
    *times += 1;
    if (asked == NULL || sscanf(asked, "%7s %u %7s", name, &time, what) != 3)
        return 0;
    if (strcmp(name, call) != 0 || time != *times)
        return 0;
    if (strcmp(what, "short") == 0)
        return 1;
    if (strcmp(what, "end") == 0)
        _exit(99);
    errno = atoi(what);
    return -1;
}

ssize_t __wrap_write(int file, const void *bytes, size_t length) {
    static unsigned times;
    int found = fault("write", &times);
    return found < 0 ? -1 : __real_write(file, bytes, found == 0 ? length : length / 2);
}

ssize_t __wrap_pwrite(int file, const void *bytes, size_t length, off_t at) {
    static unsigned times;
    int found = fault("pwrite", &times);
    return found < 0 ? -1 : __real_pwrite(file, bytes, found == 0 ? length : length / 2, at);
}

int __wrap_fchmod(int file, mode_t mode) {
    static unsigned times;
    return fault("fchmod", &times) < 0 ? -1 : __real_fchmod(file, mode);
}

int __wrap_fsync(int file) {
    static unsigned times;
    return fault("fsync", &times) < 0 ? -1 : __real_fsync(file);
}

/* A file whose closing fails is closed all the same. */
int __wrap_close(int file) {
    static unsigned times;
    int found = fault("close", &times), reason = errno, result = __real_close(file);
    errno = found < 0 ? reason : errno;
    return found < 0 ? -1 : result;
}

int __wrap_rename(const char *from, const char *to) {
    static unsigned times;
    return fault("rename", &times) < 0 ? -1 : __real_rename(from, to);
}
