/* Refuses one request for memory of a program, by its number: 1 is the first. Loaded before the C library (LD_PRELOAD); the
   number stands in REFUSED_REQUEST, and the file that REFUSED_FILE names gets one byte where the request was made. */
#define _GNU_SOURCE
#include <errno.h>
#include <fcntl.h>
#include <stddef.h>
#include <stdlib.h>
#include <unistd.h>

void *__libc_malloc(size_t size);
void *__libc_calloc(size_t count, size_t size);
void *__libc_realloc(void *block, size_t size);
void *__libc_memalign(size_t alignment, size_t size);

/* The number of the request that is refused, and how many were made. */
static long refused, made;

__attribute__((constructor)) static void begin(void) {
    const char *number = getenv("REFUSED_REQUEST");
    made = 0;
    refused = number ? atol(number) : 0;
}

static void tell(void) {
    const char *name = getenv("REFUSED_FILE");
    int file = name ? open(name, O_WRONLY | O_CREAT | O_CLOEXEC, 0600) : -1;
    if (file >= 0) {
        ssize_t wrote = write(file, "1", 1);
        (void)wrote;
        close(file);
    }
}

static int is_refused(void) {
    if (__atomic_add_fetch(&made, 1, __ATOMIC_RELAXED) != refused) {
        return 0;
    }
    tell();
    errno = ENOMEM;
    return 1;
}

void *malloc(size_t size) { return is_refused() ? NULL : __libc_malloc(size); }

void *calloc(size_t count, size_t size) { return is_refused() ? NULL : __libc_calloc(count, size); }

void *realloc(void *block, size_t size) { return is_refused() ? NULL : __libc_realloc(block, size); }

void *aligned_alloc(size_t alignment, size_t size) { return is_refused() ? NULL : __libc_memalign(alignment, size); }

int posix_memalign(void **block, size_t alignment, size_t size) {
    *block = is_refused() ? NULL : __libc_memalign(alignment, size);
    return *block ? 0 : ENOMEM;
}
