/* Lets one call of the system fail in a program that is started with this library preloaded. The environment says which:
 *
 *   FAIL_CALL   the name of the call: read, write, open, openat, getdents64, statx, pread64, pwrite64, ftruncate64, rename or fsync; without it
 *               none fails
 *   FAIL_AT     the number of the first call of this name that fails, from 1; without it none does
 *   FAIL_TIMES  how many calls fail, one after the other: 1 without it
 *   FAIL_ERROR  the number of the error: 4 without it, which says that a signal interrupted the call
 *   FAIL_COUNT  a file that gets one byte for each call that failed
 */
#define _GNU_SOURCE
#include <errno.h>
#include <fcntl.h>
#include <stdarg.h>
#include <stdatomic.h>
#include <stdio.h>
#include <stdlib.h>
#include <string.h>
#include <sys/stat.h>
#include <sys/syscall.h>
#include <unistd.h>

static const char *name;
static unsigned long first, times = 1, error = EINTR;
static const char *count_file;
static atomic_ulong calls;

static unsigned long number(const char *variable, unsigned long otherwise) {
    const char *text = getenv(variable);
    return text ? strtoul(text, NULL, 10) : otherwise;
}

__attribute__((constructor)) static void set_up(void) {
    name = getenv("FAIL_CALL");
    first = number("FAIL_AT", 0);
    times = number("FAIL_TIMES", 1);
    error = number("FAIL_ERROR", EINTR);
    count_file = getenv("FAIL_COUNT");
}

static void count(void) {
    if (!count_file)
        return;
    int file = (int)syscall(SYS_openat, AT_FDCWD, count_file, O_WRONLY | O_APPEND | O_CREAT | O_CLOEXEC, 0666);
    if (file < 0 || syscall(SYS_write, file, "x", 1) != 1)
        _exit(99);
    syscall(SYS_close, file);
}

static int fails(const char *call) {
    if (!name || strcmp(name, call) != 0 || first == 0)
        return 0;
    unsigned long at = atomic_fetch_add(&calls, 1) + 1;
    if (at < first || at >= first + times)
        return 0;
    count();
    errno = (int)error;
    return 1;
}

ssize_t read(int file, void *buffer, size_t length) {
    return fails("read") ? -1 : syscall(SYS_read, file, buffer, length);
}

ssize_t write(int file, const void *buffer, size_t length) {
    return fails("write") ? -1 : syscall(SYS_write, file, buffer, length);
}

int open(const char *path, int flags, ...) {
    va_list rest;
    va_start(rest, flags);
    int mode = flags & (O_CREAT | O_TMPFILE) ? va_arg(rest, int) : 0;
    va_end(rest);
    return fails("open") ? -1 : (int)syscall(SYS_openat, AT_FDCWD, path, flags, mode);
}

int openat(int folder, const char *path, int flags, ...) {
    va_list rest;
    va_start(rest, flags);
    int mode = flags & (O_CREAT | O_TMPFILE) ? va_arg(rest, int) : 0;
    va_end(rest);
    return fails("openat") ? -1 : (int)syscall(SYS_openat, folder, path, flags, mode);
}

ssize_t getdents64(int folder, void *buffer, size_t length) {
    return fails("getdents64") ? -1 : syscall(SYS_getdents64, folder, buffer, length);
}

int statx(int folder, const char *restrict path, int flags, unsigned mask, struct statx *restrict found) {
    return fails("statx") ? -1 : (int)syscall(SYS_statx, folder, path, flags, mask, found);
}

ssize_t pread64(int file, void *buffer, size_t length, off_t at) {
    return fails("pread64") ? -1 : syscall(SYS_pread64, file, buffer, length, at);
}

ssize_t pwrite64(int file, const void *buffer, size_t length, off_t at) {
    return fails("pwrite64") ? -1 : syscall(SYS_pwrite64, file, buffer, length, at);
}

int ftruncate64(int file, off_t length) {
    return fails("ftruncate64") ? -1 : (int)syscall(SYS_ftruncate, file, length);
}

ssize_t pwrite(int file, const void *buffer, size_t length, off_t at) {
    return pwrite64(file, buffer, length, at);
}

int ftruncate(int file, off_t length) {
    return ftruncate64(file, length);
}

int rename(const char *from, const char *to) {
    return fails("rename") ? -1 : (int)syscall(SYS_renameat2, AT_FDCWD, from, AT_FDCWD, to, 0);
}

int fsync(int file) {
    return fails("fsync") ? -1 : (int)syscall(SYS_fsync, file);
}
