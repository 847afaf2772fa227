/* Where the library's memory comes from: the proved archive calls this function in place of malloc.
 * realloc and free take its blocks as they take malloc's. */
#include <stdint.h>
#include <stdlib.h>

enum { CACHE_LINE = 64, LARGE = 1024 };

void *cuckoo_map_block(size_t size);

/* A block of so many bytes, or NULL. A large one begins a cache line: it has the buckets of a
 * stripe, of 64 bytes where keys and values are numbers, and so none of them is in two lines. */
void *cuckoo_map_block(size_t size) {
    if (size < LARGE || size > SIZE_MAX - CACHE_LINE) return malloc(size);
    return aligned_alloc(CACHE_LINE, (size + CACHE_LINE - 1) / CACHE_LINE * CACHE_LINE);
}
