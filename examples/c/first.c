/* Eight threads count in one table. */
#include <cuckoo_map.h>
#include <inttypes.h>
#include <pthread.h>
#include <sched.h>
#include <stdio.h>

enum { THREADS = 8, KEYS = 1000, ADDITIONS = 100000 };

/* A handle in a line of the cache of its own, since calls write it. */
struct place {
    _Alignas(64) cuckoo_handle handle;
};

/* Adds 1 to the keys in turn. A call that is refused as busy is made again, when other threads have
 * run. */
static void *count(void *of) {
    cuckoo_handle *handle = of;
    for (uint64_t i = 0; i < ADDITIONS; i++) {
        int32_t code;
        while ((code = cuckoo_add(handle, i % KEYS, 1)) == CUCKOO_BUSY) sched_yield();
        if (code < 0) return of;
    }
    return NULL;
}

int main(void) {
    /* A handle for each thread, and one for this function. Each is moved to its place: the one that
     * it is copied from isn't used again. */
    cuckoo_handle opened[THREADS + 1] = {CUCKOO_CLOSED_HANDLE};
    if (cuckoo_open(KEYS, 64, opened, THREADS + 1) != CUCKOO_OK) return 1;
    struct place places[THREADS + 1];
    for (int i = 0; i <= THREADS; i++) places[i].handle = opened[i];

    pthread_t threads[THREADS];
    for (int i = 0; i < THREADS; i++)
        if (pthread_create(&threads[i], NULL, count, &places[i].handle) != 0) return 1;
    for (int i = 0; i < THREADS; i++) {
        void *refused;
        pthread_join(threads[i], &refused);
        if (refused) return 1;
    }

    /* No other thread makes calls by now, so none of these is refused as busy. */
    cuckoo_handle *mine = &places[THREADS].handle;
    uint64_t value = 0;
    uint64_t sum = 0;
    uint64_t key;
    if (cuckoo_find(mine, 5, &value) == CUCKOO_OK) printf("key 5: %" PRIu64 "\n", value);
    cuckoo_insert(mine, KEYS, 1);
    if (cuckoo_insert(mine, KEYS, 2) == CUCKOO_PRESENT) puts("key 1000 was bound before");
    if (cuckoo_erase(mine, KEYS, &value) == CUCKOO_OK) printf("key 1000: %" PRIu64 "\n", value);
    if (cuckoo_find(mine, KEYS, &value) == CUCKOO_ABSENT) puts("key 1000 is unbound");

    cuckoo_pairs pairs = CUCKOO_NO_PAIRS;
    if (cuckoo_export(mine, &pairs) != CUCKOO_OK) return 1;
    while (cuckoo_pairs_next(&pairs, &key, &value) == CUCKOO_OK) sum += value;
    cuckoo_pairs_close(&pairs);
    printf("all: %" PRIu64 "\n", sum);

    for (int i = 0; i <= THREADS; i++) cuckoo_close(&places[i].handle);
    return 0;
}
