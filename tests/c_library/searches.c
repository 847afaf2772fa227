/* Insertions for which there is no room in a table, and no displacement makes any. How often they
 * search for one is counted by valgrind, in the functions `refused`, `grows` and
 * `refused_when_locked`; see `run`. The one argument is `rounds`. */
#include <cuckoo_map.h>
#include <stdlib.h>

/* A table opens with so many slots. */
enum { SLOTS = 64 };

/* The handle of a table that may not grow, and of one that may. */
static cuckoo_handle handle = CUCKOO_CLOSED_HANDLE;
static cuckoo_handle growing = CUCKOO_CLOSED_HANDLE;
static cuckoo_locked locked = CUCKOO_NOT_LOCKED;

int refused(uint64_t key);
int grows(uint64_t key);
int refused_when_locked(uint64_t key);

__attribute__((noinline)) int refused(uint64_t key) {
    return cuckoo_insert(&handle, key, 0) == CUCKOO_FULL;
}

__attribute__((noinline)) int grows(uint64_t key) {
    return cuckoo_insert(&growing, key, 0) == CUCKOO_OK;
}

__attribute__((noinline)) int refused_when_locked(uint64_t key) {
    return cuckoo_locked_insert(&locked, key, 0) == CUCKOO_FULL;
}

static int is_opened(cuckoo_handle *place, uint32_t max, uint32_t rounds) {
    cuckoo_settings settings = {.s = 2, .power = 4, .max = max, .callers = 1, .turns = 64,
                                .rounds = rounds, .min_load = 0};
    return cuckoo_open_with(&settings, place, 1) == CUCKOO_OK;
}

static int has_slots(uint64_t wanted) {
    uint64_t slots = 0;
    return cuckoo_capacity(&growing, &slots) == CUCKOO_OK && slots == wanted;
}

int main(int count, char **words) {
    uint32_t rounds = count > 1 ? (uint32_t)strtoul(words[1], NULL, 10) : 0;
    uint64_t key = 0;
    if (!is_opened(&handle, 4, rounds) || !is_opened(&growing, 5, rounds)) return 1;
    while (key < SLOTS && cuckoo_insert(&handle, key, 0) == CUCKOO_OK) key++;
    for (uint64_t other = 0; other < key; other++)
        if (cuckoo_insert(&growing, other, 0) != CUCKOO_OK) return 2;
    if (key < SLOTS / 2 || !has_slots(SLOTS)) return 3;
    if (!refused(key) || !grows(key) || !has_slots(2 * SLOTS)) return 4;
    if (cuckoo_lock(&handle, &locked) != CUCKOO_OK || !refused_when_locked(key)) return 5;
    cuckoo_locked_close(&locked);
    cuckoo_close(&growing);
    return 0;
}
