/* Logs what a program, which is started with this library preloaded, does with the file `cvwatch.keep` of its working directory, and what it
 * writes to standard output. The environment variable DISK_LOG names the file of the log. An entry has one byte for its kind, two numbers of 8
 * bytes in the order of this machine, and, where the second one says so, bytes:
 *
 *   W  a write begins: its place, how many bytes, the bytes
 *   D  it has ended: how many bytes were written, or -1; 0
 *   T  a cut begins: the new length, 0
 *   S  a sync has succeeded: 0, 0
 *   O  a write to standard output begins: 0, how many bytes, the bytes
 */
#define _GNU_SOURCE
#include <fcntl.h>
#include <pthread.h>
#include <stdarg.h>
#include <stdint.h>
#include <stdlib.h>
#include <string.h>
#include <sys/stat.h>
#include <sys/syscall.h>
#include <sys/types.h>
#include <sys/uio.h>
#include <unistd.h>

#define KEPT "cvwatch.keep"

static int log_file = -1;
static pthread_mutex_t lock = PTHREAD_MUTEX_INITIALIZER;

__attribute__((constructor)) static void set_up(void) {
    const char *name = getenv("DISK_LOG");
    if (!name)
        return;
    int file = (int)syscall(SYS_openat, AT_FDCWD, name, O_WRONLY | O_APPEND | O_CREAT | O_CLOEXEC, 0666);
    /* a number that no program takes for one of its own files */
    log_file = fcntl(file, F_DUPFD_CLOEXEC, 200);
    if (log_file < 0)
        _exit(99);
    syscall(SYS_close, file);
}

static int is_kept(int file) {
    struct stat here, kept;
    return log_file >= 0 && fstat(file, &here) == 0 && stat(KEPT, &kept) == 0 && here.st_dev == kept.st_dev && here.st_ino == kept.st_ino;
}

static void put(const void *bytes, size_t length) {
    const char *next = bytes;
    while (length > 0) {
        long done = syscall(SYS_write, log_file, next, length);
        if (done <= 0)
            _exit(99);
        next += done;
        length -= (size_t)done;
    }
}

static void note(char kind, int64_t first, int64_t second, const struct iovec *parts, int count) {
    char head[17];
    head[0] = kind;
    memcpy(head + 1, &first, 8);
    memcpy(head + 9, &second, 8);
    pthread_mutex_lock(&lock);
    put(head, sizeof head);
    for (int part = 0; part < count; part++)
        put(parts[part].iov_base, parts[part].iov_len);
    pthread_mutex_unlock(&lock);
}

static int64_t length_of(const struct iovec *parts, int count) {
    int64_t length = 0;
    for (int part = 0; part < count; part++)
        length += (int64_t)parts[part].iov_len;
    return length;
}

static ssize_t write_parts(int file, const struct iovec *parts, int count, off_t at) {
    int kept = is_kept(file);
    if (kept)
        note('W', at >= 0 ? at : lseek(file, 0, SEEK_CUR), length_of(parts, count), parts, count);
    else if (file == STDOUT_FILENO && log_file >= 0)
        note('O', 0, length_of(parts, count), parts, count);
    ssize_t done = at >= 0 ? syscall(SYS_pwritev, file, parts, (long)count, (long)at, 0L) : syscall(SYS_writev, file, parts, (long)count);
    if (kept)
        note('D', done, 0, NULL, 0);
    return done;
}

ssize_t write(int file, const void *bytes, size_t length) {
    struct iovec part = {(void *)bytes, length};
    return write_parts(file, &part, 1, -1);
}

ssize_t pwrite64(int file, const void *bytes, size_t length, off_t at) {
    struct iovec part = {(void *)bytes, length};
    return write_parts(file, &part, 1, at);
}

ssize_t pwrite(int file, const void *bytes, size_t length, off_t at) {
    return pwrite64(file, bytes, length, at);
}

ssize_t writev(int file, const struct iovec *parts, int count) {
    return write_parts(file, parts, count, -1);
}

ssize_t pwritev64(int file, const struct iovec *parts, int count, off_t at) {
    return write_parts(file, parts, count, at);
}

ssize_t pwritev(int file, const struct iovec *parts, int count, off_t at) {
    return write_parts(file, parts, count, at);
}

int ftruncate64(int file, off_t length) {
    if (is_kept(file))
        note('T', length, 0, NULL, 0);
    return (int)syscall(SYS_ftruncate, file, length);
}

int ftruncate(int file, off_t length) {
    return ftruncate64(file, length);
}

static int synced(int file, int done) {
    if (done == 0 && is_kept(file))
        note('S', 0, 0, NULL, 0);
    return done;
}

int fsync(int file) {
    return synced(file, (int)syscall(SYS_fsync, file));
}

int fdatasync(int file) {
    return synced(file, (int)syscall(SYS_fdatasync, file));
}
