/* A table that stays locked between calls: each answer, what other handles see, and each request for
 * memory refused in turn. The linker puts in the program's own malloc, aligned_alloc, realloc and free
 * by --wrap. */
#include <cuckoo_map.h>
#include <pthread.h>
#include <sched.h>
#include <stdatomic.h>
#include <stdint.h>
#include <stdio.h>
#include <stdlib.h>
#include <string.h>
#include <time.h>

enum { HANDLES = 2, MOST = 100, KEYS = 8 };

#define UNTOUCHED UINT64_C(12345)

/* While it watches: how many requests there were, from which on they are refused, and how many blocks
 * are there that were not there before. */
static int watches;
static int requests;
static int refused;
static int blocks;
static int failed;

void *__real_malloc(size_t size);
void *__wrap_malloc(size_t size);
void *__real_aligned_alloc(size_t alignment, size_t size);
void *__wrap_aligned_alloc(size_t alignment, size_t size);
void *__real_realloc(void *block, size_t size);
void *__wrap_realloc(void *block, size_t size);
void __real_free(void *block);
void __wrap_free(void *block);

static int is_refused(void) { return watches && requests++ >= refused; }

static void *counted(void *block) {
    if (watches && block != NULL) blocks++;
    return block;
}

void *__wrap_malloc(size_t size) { return is_refused() ? NULL : counted(__real_malloc(size)); }

void *__wrap_aligned_alloc(size_t alignment, size_t size) {
    return is_refused() ? NULL : counted(__real_aligned_alloc(alignment, size));
}

void *__wrap_realloc(void *block, size_t size) {
    return is_refused() ? NULL : __real_realloc(block, size);
}

void __wrap_free(void *block) {
    if (watches && block != NULL) blocks--;
    __real_free(block);
}

static void watch(int from) {
    requests = 0;
    refused = from;
    blocks = 0;
    watches = 1;
}

static void check(const char *what, int holds) {
    if (holds) return;
    fprintf(stderr, "locked: wrong: %s\n", what);
    failed = 1;
}

static void expect(const char *what, int32_t code, int32_t wanted) {
    if (code == wanted) return;
    fprintf(stderr, "locked: wrong: %s: %d, and not %d\n", what, code, wanted);
    failed = 1;
}

/* A call that takes no memory, and gives none back, is answered where there is none. */
#define NONE(what, call, code)                         \
    do {                                               \
        int32_t got;                                   \
        watch(0);                                      \
        got = (call);                                  \
        watches = 0;                                   \
        expect(what, got, code);                       \
        check(what " requests none", requests == 0);   \
        check(what " frees none", blocks == 0);        \
    } while (0)

static cuckoo_handle handles[HANDLES];
static cuckoo_text_handle texts[HANDLES];

static cuckoo_settings settings_of(uint32_t power, uint32_t max) {
    return (cuckoo_settings){.s = 1, .power = power, .max = max, .callers = HANDLES, .turns = 1,
                             .rounds = 4, .min_load = 5};
}

static void open_all(uint32_t power, uint32_t max) {
    cuckoo_settings set = settings_of(power, max);
    expect("open", cuckoo_open_with(&set, handles, HANDLES), CUCKOO_OK);
    expect("open texts", cuckoo_text_open_with(&set, texts, HANDLES), CUCKOO_OK);
}

static void close_all(void) {
    for (int i = 0; i < HANDLES; i++) {
        cuckoo_close(&handles[i]);
        cuckoo_text_close(&texts[i]);
    }
}

/* Where nothing is locked, calls change nothing. */
static void try_not_locked(void) {
    cuckoo_handle none = CUCKOO_CLOSED_HANDLE;
    cuckoo_locked locked = CUCKOO_NOT_LOCKED;
    cuckoo_pairs pairs = CUCKOO_NO_PAIRS;
    uint64_t place = UNTOUCHED;
    NONE("lock by a closed handle", cuckoo_lock(&none, &locked), CUCKOO_CLOSED);
    NONE("find in none", cuckoo_locked_find(&locked, 1, &place), CUCKOO_CLOSED);
    NONE("insert in none", cuckoo_locked_insert(&locked, 1, 2), CUCKOO_CLOSED);
    NONE("assign in none", cuckoo_locked_assign(&locked, 1, 2, &place), CUCKOO_CLOSED);
    NONE("erase in none", cuckoo_locked_erase(&locked, 1, &place), CUCKOO_CLOSED);
    NONE("len of none", cuckoo_locked_len(&locked, &place), CUCKOO_CLOSED);
    NONE("clear none", cuckoo_locked_clear(&locked), CUCKOO_CLOSED);
    NONE("export none", cuckoo_locked_export(&locked, &pairs), CUCKOO_CLOSED);
    NONE("unlock none", cuckoo_unlock(&locked, &none), CUCKOO_CLOSED);
    cuckoo_locked_close(&locked);
    check("no place was touched", place == UNTOUCHED && locked.at == NULL && pairs.at == NULL);
    check("the handle stays closed", none.at == NULL);
}

/* While it is locked, its handle is closed, and the other finds it held. */
static void try_held(void) {
    cuckoo_locked locked = CUCKOO_NOT_LOCKED;
    cuckoo_locked second = CUCKOO_NOT_LOCKED;
    uint64_t place = UNTOUCHED;
    open_all(4, 20);
    expect("insert", cuckoo_insert(&handles[0], 1, 10), CUCKOO_OK);
    expect("lock", cuckoo_lock(&handles[0], &locked), CUCKOO_OK);
    check("the handle is closed", handles[0].at == NULL && locked.at != NULL);
    expect("its own find", cuckoo_find(&handles[0], 1, &place), CUCKOO_CLOSED);
    expect("its own lock", cuckoo_lock(&handles[0], &second), CUCKOO_CLOSED);
    expect("the other's find", cuckoo_find(&handles[1], 1, &place), CUCKOO_BUSY);
    expect("the other's insertion", cuckoo_insert(&handles[1], 2, 20), CUCKOO_BUSY);
    expect("the other's count", cuckoo_len(&handles[1], &place), CUCKOO_BUSY);
    expect("the other's lock", cuckoo_lock(&handles[1], &second), CUCKOO_BUSY);
    expect("the other's lock there", cuckoo_lock(&handles[1], &locked), CUCKOO_IS_OPEN);
    check("the other is open", handles[1].at != NULL && second.at == NULL);
    expect("unlock to an open place", cuckoo_unlock(&locked, &handles[1]), CUCKOO_IS_OPEN);
    check("it stays locked", locked.at != NULL && place == UNTOUCHED);
    expect("find", cuckoo_locked_find(&locked, 1, &place), CUCKOO_OK);
    check("its value", place == 10);
    expect("unlock", cuckoo_unlock(&locked, &handles[0]), CUCKOO_OK);
    expect("unlock again", cuckoo_unlock(&locked, &handles[0]), CUCKOO_CLOSED);
    check("the handle is back", handles[0].at != NULL && locked.at == NULL);
    expect("the other's lock later", cuckoo_lock(&handles[1], &locked), CUCKOO_OK);
    expect("unlock", cuckoo_unlock(&locked, &handles[1]), CUCKOO_OK);
    close_all();
}

/* The pairs are these keys, each with ten times as much. */
static int are_tens(cuckoo_pairs *pairs, uint64_t from, uint64_t to) {
    uint64_t key;
    uint64_t value;
    uint64_t next = from;
    while (cuckoo_pairs_next(pairs, &key, &value) == CUCKOO_OK) {
        if (key != next || value != 10 * key) return 0;
        next++;
    }
    return next == to;
}

/* Each answer of each call, and what the other handle finds then. */
static void try_answers(void) {
    cuckoo_locked locked = CUCKOO_NOT_LOCKED;
    cuckoo_pairs pairs = CUCKOO_NO_PAIRS;
    uint64_t place = UNTOUCHED;
    open_all(4, 20);
    expect("lock", cuckoo_lock(&handles[0], &locked), CUCKOO_OK);
    NONE("find an unbound key", cuckoo_locked_find(&locked, 1, &place), CUCKOO_ABSENT);
    NONE("erase an unbound key", cuckoo_locked_erase(&locked, 1, &place), CUCKOO_ABSENT);
    NONE("assign to an unbound key", cuckoo_locked_assign(&locked, 1, 11, &place), CUCKOO_OK);
    check("no place was touched", place == UNTOUCHED);
    NONE("insert a bound key", cuckoo_locked_insert(&locked, 1, 12), CUCKOO_PRESENT);
    NONE("assign to a bound key", cuckoo_locked_assign(&locked, 1, 10, &place), CUCKOO_PRESENT);
    check("the old value", place == 11);
    for (uint64_t key = 2; key < KEYS; key++)
        NONE("insert", cuckoo_locked_insert(&locked, key, 10 * key), CUCKOO_OK);
    NONE("find a bound key", cuckoo_locked_find(&locked, 5, &place), CUCKOO_OK);
    check("its value", place == 50);
    NONE("len", cuckoo_locked_len(&locked, &place), CUCKOO_OK);
    check("so many", place == KEYS - 1);
    expect("export", cuckoo_locked_export(&locked, &pairs), CUCKOO_OK);
    expect("export to pairs that are open", cuckoo_locked_export(&locked, &pairs), CUCKOO_IS_OPEN);
    NONE("erase a bound key", cuckoo_locked_erase(&locked, 1, &place), CUCKOO_OK);
    check("its value was", place == 10);
    expect("unlock", cuckoo_unlock(&locked, &handles[0]), CUCKOO_OK);
    check("the pairs are of before", are_tens(&pairs, 1, KEYS));
    cuckoo_pairs_close(&pairs);
    expect("the other's find", cuckoo_find(&handles[1], 1, &place), CUCKOO_ABSENT);
    expect("the other's list", cuckoo_export(&handles[1], &pairs), CUCKOO_OK);
    check("it has all that was done", are_tens(&pairs, 2, KEYS));
    cuckoo_pairs_close(&pairs);
    expect("lock", cuckoo_lock(&handles[1], &locked), CUCKOO_OK);
    NONE("clear", cuckoo_locked_clear(&locked), CUCKOO_OK);
    NONE("len of none", cuckoo_locked_len(&locked, &place), CUCKOO_OK);
    check("no key is bound", place == 0);
    cuckoo_locked_close(&locked);
    check("the handle has ended", locked.at == NULL && handles[1].at == NULL);
    expect("count", cuckoo_len(&handles[0], &place), CUCKOO_OK);
    check("no key is bound then", place == 0);
    close_all();
}

/* A table that may not grow: what is refused leaves all else, and it stays locked. */
static void try_full(void) {
    cuckoo_locked locked = CUCKOO_NOT_LOCKED;
    uint64_t count = 0;
    uint64_t place = UNTOUCHED;
    int32_t code;
    open_all(1, 1);
    expect("lock", cuckoo_lock(&handles[0], &locked), CUCKOO_OK);
    while ((code = cuckoo_locked_insert(&locked, count, 10 * count)) == CUCKOO_OK && count < MOST)
        count++;
    expect("insert into a full table", code, CUCKOO_FULL);
    expect("assign", cuckoo_locked_assign(&locked, count, 1, &place), CUCKOO_FULL);
    expect("find", cuckoo_locked_find(&locked, count, &place), CUCKOO_ABSENT);
    check("no place was touched", place == UNTOUCHED);
    expect("unlock", cuckoo_unlock(&locked, &handles[0]), CUCKOO_OK);
    expect("count", cuckoo_len(&handles[1], &place), CUCKOO_OK);
    check("as many are bound", place == count && count > 0);
    close_all();
}

/* A lock makes one request. Refused, it changes nothing, and no block is left. */
static void try_memory(void) {
    cuckoo_locked locked = CUCKOO_NOT_LOCKED;
    cuckoo_pairs pairs = CUCKOO_NO_PAIRS;
    uint64_t place;
    int32_t code = CUCKOO_NO_MEMORY;
    int request;
    open_all(4, 20);
    for (uint64_t key = 0; key < KEYS; key++)
        expect("insert", cuckoo_insert(&handles[0], key, 10 * key), CUCKOO_OK);
    for (request = 0; code == CUCKOO_NO_MEMORY && request < MOST; request++) {
        watch(request);
        code = cuckoo_lock(&handles[0], &locked);
        watches = 0;
        if (code != CUCKOO_NO_MEMORY) break;
        check("no block is left", blocks == 0 && locked.at == NULL && handles[0].at != NULL);
        expect("the other's find", cuckoo_find(&handles[1], 5, &place), CUCKOO_OK);
    }
    expect("lock with memory", code, CUCKOO_OK);
    check("it makes one request", request == 1 && requests == 1);
    code = CUCKOO_NO_MEMORY;
    for (request = 0; code == CUCKOO_NO_MEMORY && request < MOST; request++) {
        watch(request);
        code = cuckoo_locked_export(&locked, &pairs);
        watches = 0;
        if (code != CUCKOO_NO_MEMORY) break;
        check("no pairs are left", blocks == 0 && pairs.at == NULL);
        NONE("find", cuckoo_locked_find(&locked, 5, &place), CUCKOO_OK);
    }
    expect("export with memory", code, CUCKOO_OK);
    check("it makes requests", request >= 2 && are_tens(&pairs, 0, KEYS));
    cuckoo_pairs_close(&pairs);
    watch(0);
    expect("unlock without memory", cuckoo_unlock(&locked, &handles[0]), CUCKOO_OK);
    watches = 0;
    check("it frees one block", requests == 0 && blocks == -1);
    close_all();
}

/* A locked table grows, or an insertion that finds no memory for that is refused. */
static void try_growth(void) {
    cuckoo_locked locked = CUCKOO_NOT_LOCKED;
    uint64_t count = 0;
    uint64_t place;
    int32_t code;
    open_all(1, 20);
    expect("lock", cuckoo_lock(&handles[0], &locked), CUCKOO_OK);
    watch(0);
    while ((code = cuckoo_locked_insert(&locked, count, 10 * count)) == CUCKOO_OK && count < MOST)
        count++;
    watches = 0;
    expect("insert without memory", code, CUCKOO_NO_MEMORY);
    check("no block is left", blocks == 0 && count > 0 && count < MOST);
    for (; count < MOST; count++)
        expect("insert", cuckoo_locked_insert(&locked, count, 10 * count), CUCKOO_OK);
    expect("unlock", cuckoo_unlock(&locked, &handles[0]), CUCKOO_OK);
    for (uint64_t key = 0; key < MOST; key++)
        check("a key is bound",
              cuckoo_find(&handles[1], key, &place) == CUCKOO_OK && place == 10 * key);
    close_all();
}

/* The last handle of a table may be the one that is in a locked one. */
static void try_last(void) {
    cuckoo_locked locked = CUCKOO_NOT_LOCKED;
    open_all(4, 20);
    expect("insert", cuckoo_insert(&handles[0], 1, 10), CUCKOO_OK);
    expect("lock", cuckoo_lock(&handles[0], &locked), CUCKOO_OK);
    cuckoo_close(&handles[1]);
    expect("insert", cuckoo_locked_insert(&locked, 2, 20), CUCKOO_OK);
    cuckoo_locked_close(&locked);
    close_all();
}

/* The same calls on texts, and their own refusals. */
static void try_texts(void) {
    char long_text[65];
    cuckoo_text_locked locked = CUCKOO_NOT_LOCKED;
    cuckoo_text_pairs pairs = CUCKOO_NO_PAIRS;
    char key[CUCKOO_TEXT_MAX];
    size_t length = 0;
    uint64_t place = UNTOUCHED;
    memset(long_text, 'x', sizeof long_text);
    open_all(4, 20);
    expect("lock texts", cuckoo_text_lock(&texts[0], &locked), CUCKOO_OK);
    expect("the other's find", cuckoo_text_find(&texts[1], "a", 1, &place), CUCKOO_BUSY);
    expect("its own find", cuckoo_text_find(&texts[0], "a", 1, &place), CUCKOO_CLOSED);
    NONE("a long find", cuckoo_text_locked_find(&locked, long_text, 65, &place), CUCKOO_TOO_LONG);
    NONE("a long insertion", cuckoo_text_locked_insert(&locked, long_text, 65, 1), CUCKOO_TOO_LONG);
    NONE("a long assignment", cuckoo_text_locked_assign(&locked, long_text, 65, 1, &place),
         CUCKOO_TOO_LONG);
    NONE("a long erasure", cuckoo_text_locked_erase(&locked, long_text, 65, &place),
         CUCKOO_TOO_LONG);
    watch(0);
    expect("insert without memory", cuckoo_text_locked_insert(&locked, "a", 1, 1), CUCKOO_NO_MEMORY);
    expect("assign without memory", cuckoo_text_locked_assign(&locked, "a", 1, 1, &place),
           CUCKOO_NO_MEMORY);
    watches = 0;
    check("no place was touched", place == UNTOUCHED && blocks == 0);
    expect("insert", cuckoo_text_locked_insert(&locked, "b", 1, 2), CUCKOO_OK);
    expect("insert again", cuckoo_text_locked_insert(&locked, "b", 1, 3), CUCKOO_PRESENT);
    expect("assign", cuckoo_text_locked_assign(&locked, "a", 1, 1, &place), CUCKOO_OK);
    expect("find", cuckoo_text_locked_find(&locked, "b", 1, &place), CUCKOO_OK);
    check("its value", place == 2);
    expect("len", cuckoo_text_locked_len(&locked, &place), CUCKOO_OK);
    check("so many", place == 2);
    expect("export", cuckoo_text_locked_export(&locked, &pairs), CUCKOO_OK);
    expect("the first pair", cuckoo_text_pairs_next(&pairs, key, sizeof key, &length, &place),
           CUCKOO_OK);
    check("it is the lesser key", length == 1 && key[0] == 'a' && place == 1);
    cuckoo_text_pairs_close(&pairs);
    expect("erase", cuckoo_text_locked_erase(&locked, "a", 1, &place), CUCKOO_OK);
    expect("unlock", cuckoo_text_unlock(&locked, &texts[0]), CUCKOO_OK);
    expect("the other's find", cuckoo_text_find(&texts[1], "b", 1, &place), CUCKOO_OK);
    check("its value then", place == 2);
    expect("lock", cuckoo_text_lock(&texts[1], &locked), CUCKOO_OK);
    expect("clear", cuckoo_text_locked_clear(&locked), CUCKOO_OK);
    cuckoo_text_locked_close(&locked);
    expect("count", cuckoo_text_len(&texts[0], &place), CUCKOO_OK);
    check("no key is bound", place == 0);
    close_all();
}

/* One thread moves what keys have, one key after the other, while it has the table locked; another
 * finds that all have moved, or none. */
static atomic_int is_over;

static int32_t patiently(int32_t code) {
    if (code == CUCKOO_BUSY) sched_yield();
    return code;
}

/* Where threads share a processor, as under valgrind, the one that runs would hardly let the other come
 * to a call. */
static void let_run(void) { nanosleep(&(struct timespec){.tv_nsec = 1000000}, NULL); }

static void *move_under_locks(void *of) {
    cuckoo_handle *handle = of;
    while (!is_over) {
        cuckoo_locked locked = CUCKOO_NOT_LOCKED;
        uint64_t value;
        uint64_t first = 0;
        while (patiently(cuckoo_lock(handle, &locked)) == CUCKOO_BUSY) continue;
        for (uint64_t key = 0; key < KEYS; key++) {
            check("a key is bound", cuckoo_locked_erase(&locked, key, &value) == CUCKOO_OK);
            if (key == 0) first = value;
            else check("it moves", cuckoo_locked_insert(&locked, key - 1, value) == CUCKOO_OK);
        }
        check("the last moves", cuckoo_locked_insert(&locked, KEYS - 1, first) == CUCKOO_OK);
        check("it is unlocked", cuckoo_unlock(&locked, handle) == CUCKOO_OK);
        let_run();
    }
    return NULL;
}

/* Until they were seen to move so often; half a minute at most. */
static void try_threads(void) {
    enum { MOVES = 20 };
    pthread_t thread;
    time_t begun = time(NULL);
    uint64_t moves = 0;
    uint64_t first = 0;
    open_all(4, 20);
    for (uint64_t key = 0; key < KEYS; key++)
        expect("insert", cuckoo_insert(&handles[0], key, key), CUCKOO_OK);
    is_over = 0;
    check("a thread begins", pthread_create(&thread, NULL, move_under_locks, &handles[0]) == 0);
    while (moves < MOVES && time(NULL) < begun + 30) {
        cuckoo_entry entries[KEYS];
        for (uint64_t key = 0; key < KEYS; key++) entries[key] = (cuckoo_entry){key, 0, 0};
        if (patiently(cuckoo_find_all(&handles[1], entries, KEYS)) != CUCKOO_OK) continue;
        for (uint64_t key = 0; key < KEYS; key++)
            check("they moved all, or none",
                  entries[key].bound == 1 && entries[key].value == (entries[0].value + key) % KEYS);
        moves += entries[0].value != first;
        first = entries[0].value;
        let_run();
    }
    is_over = 1;
    pthread_join(thread, NULL);
    check("they were seen to move", moves == MOVES);
    close_all();
}

int main(void) {
    try_not_locked();
    try_held();
    try_answers();
    try_full();
    try_memory();
    try_growth();
    try_last();
    try_texts();
    try_threads();
    puts(failed ? "failed" : "passed");
    return failed;
}
