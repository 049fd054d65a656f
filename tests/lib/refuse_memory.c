/* Refuses memory to a program that is started with this library preloaded. Requests for memory are counted from 1, from the moment on
 * at which the library has been set up; the C library's own are among them, as those for a thread. The environment says what to do:
 *
 *   REFUSE_AT      the number of the request that is refused; without it, or with 0, none is
 *   REFUSE_REST    if it is there, all later requests are refused, too
 *   REFUSE_COUNTS  a file of 16 bytes, which gets two numbers: how many requests there were, and how many were refused. They are
 *                  known however the program ends
 */
#define _GNU_SOURCE
#include <errno.h>
#include <fcntl.h>
#include <stdarg.h>
#include <stdatomic.h>
#include <stddef.h>
#include <stdint.h>
#include <stdlib.h>
#include <sys/mman.h>
#include <sys/syscall.h>
#include <unistd.h>

extern void *__libc_malloc(size_t size);
extern void *__libc_calloc(size_t count, size_t size);
extern void *__libc_realloc(void *old, size_t size);
extern void *__libc_memalign(size_t alignment, size_t size);

struct counts {
    atomic_ullong requests;
    atomic_ullong refused;
};

static struct counts uncounted;
static struct counts *counts = &uncounted;
static unsigned long long refuse_at;
static int refuse_rest;
static atomic_int is_set_up;

__attribute__((constructor)) static void set_up(void) {
    const char *at = getenv("REFUSE_AT");
    const char *file = getenv("REFUSE_COUNTS");
    refuse_at = at ? strtoull(at, NULL, 10) : 0;
    refuse_rest = getenv("REFUSE_REST") != NULL;
    if (file) {
        int opened = open(file, O_RDWR | O_CLOEXEC);
        void *place = (void *)syscall(SYS_mmap, NULL, sizeof *counts, PROT_READ | PROT_WRITE, MAP_SHARED, opened, (off_t)0);
        if (opened < 0 || place == MAP_FAILED)
            _exit(99);
        close(opened);
        counts = place;
    }
    atomic_store(&is_set_up, 1);
}

static int is_refused(void) {
    if (!atomic_load(&is_set_up))
        return 0;
    unsigned long long number = atomic_fetch_add(&counts->requests, 1) + 1;
    if (refuse_at == 0 || number < refuse_at || (number > refuse_at && !refuse_rest))
        return 0;
    atomic_fetch_add(&counts->refused, 1);
    errno = ENOMEM;
    return 1;
}

void *malloc(size_t size) {
    return is_refused() ? NULL : __libc_malloc(size);
}

void *calloc(size_t count, size_t size) {
    return is_refused() ? NULL : __libc_calloc(count, size);
}

void *realloc(void *old, size_t size) {
    return is_refused() ? NULL : __libc_realloc(old, size);
}

void *reallocarray(void *old, size_t count, size_t size) {
    size_t bytes;
    if (__builtin_mul_overflow(count, size, &bytes)) {
        errno = ENOMEM;
        return NULL;
    }
    return realloc(old, bytes);
}

void *memalign(size_t alignment, size_t size) {
    return is_refused() ? NULL : __libc_memalign(alignment, size);
}

void *aligned_alloc(size_t alignment, size_t size) {
    return memalign(alignment, size);
}

int posix_memalign(void **place, size_t alignment, size_t size) {
    if (alignment % sizeof(void *) != 0 || (alignment & (alignment - 1)) != 0)
        return EINVAL;
    void *found = memalign(alignment, size);
    if (found == NULL)
        return ENOMEM;
    *place = found;
    return 0;
}

/* A mapping of a file is no request for memory. */
void *mmap(void *address, size_t length, int protection, int flags, int file, off_t offset) {
    if ((flags & MAP_ANONYMOUS) && is_refused())
        return MAP_FAILED;
    return (void *)syscall(SYS_mmap, address, length, protection, flags, file, offset);
}

void *mmap64(void *address, size_t length, int protection, int flags, int file, off_t offset) {
    return mmap(address, length, protection, flags, file, offset);
}

void *mremap(void *old, size_t old_length, size_t length, int flags, ...) {
    void *address = NULL;
    if (flags & MREMAP_FIXED) {
        va_list rest;
        va_start(rest, flags);
        address = va_arg(rest, void *);
        va_end(rest);
    }
    if (is_refused())
        return MAP_FAILED;
    return (void *)syscall(SYS_mremap, old, old_length, length, flags, address);
}
