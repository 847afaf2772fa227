/* Loaded before a program's C library, it refuses as many of the program's requests for memory as
 * MANY says, from the one on whose number, counted from 1, stands in REFUSED. Then there is the file
 * that TOLD names. */
#include <errno.h>
#include <fcntl.h>
#include <stdatomic.h>
#include <stddef.h>
#include <stdlib.h>
#include <unistd.h>

extern void *__libc_malloc(size_t size);
extern void *__libc_calloc(size_t count, size_t size);
extern void *__libc_realloc(void *block, size_t size);
extern void *__libc_memalign(size_t alignment, size_t size);

static atomic_ulong made;

static int is_refused(void) {
    const char *first = getenv("REFUSED"), *many = getenv("MANY"), *told = getenv("TOLD");
    unsigned long number = atomic_fetch_add(&made, 1) + 1;
    if (!first || !many || !told) return 0;
    if (number < strtoul(first, NULL, 10)) return 0;
    if (number - strtoul(first, NULL, 10) >= strtoul(many, NULL, 10)) return 0;
    close(open(told, O_CREAT | O_WRONLY, 0600));
    errno = ENOMEM;
    return 1;
}

void *malloc(size_t size) { return is_refused() ? NULL : __libc_malloc(size); }

void *calloc(size_t count, size_t size) {
    return is_refused() ? NULL : __libc_calloc(count, size);
}

void *realloc(void *block, size_t size) {
    return is_refused() ? NULL : __libc_realloc(block, size);
}

void *aligned_alloc(size_t alignment, size_t size) {
    return is_refused() ? NULL : __libc_memalign(alignment, size);
}
