/* Which calls request memory, and each of their requests refused in turn: the answer, what stays,
 * and that no block is kept. The linker puts in the program's own malloc, aligned_alloc, realloc and
 * free by --wrap. */
#include <cuckoo_map.h>
#include <stdint.h>
#include <stdio.h>
#include <stdlib.h>

enum { KEYS = 8, SLOTS = 64, HANDLES = 2, MOST = 100 };

/* While it watches: how many requests there were, and of these of a block that begins a cache line,
 * from which on they are refused, and how many blocks are there that were not there before. */
static int watches;
static int requests;
static int aligned;
static int refused;
static int blocks;
static int failed;

void *__real_malloc(size_t size);
void *__wrap_malloc(size_t size);
void *__real_aligned_alloc(size_t alignment, size_t size);
void *__wrap_aligned_alloc(size_t alignment, size_t size);
void *__real_realloc(void *block, size_t size);
void *__wrap_realloc(void *block, size_t size);
void __real_free(void *block);
void __wrap_free(void *block);

static int is_refused(void) { return watches && requests++ >= refused; }

static void *counted(void *block) {
    if (watches && block != NULL) blocks++;
    return block;
}

void *__wrap_malloc(size_t size) { return is_refused() ? NULL : counted(__real_malloc(size)); }

void *__wrap_aligned_alloc(size_t alignment, size_t size) {
    if (watches && alignment == 64 && size % alignment == 0) aligned++;
    return is_refused() ? NULL : counted(__real_aligned_alloc(alignment, size));
}

void *__wrap_realloc(void *block, size_t size) {
    return is_refused() ? NULL : __real_realloc(block, size);
}

void __wrap_free(void *block) {
    if (watches && block != NULL) blocks--;
    __real_free(block);
}

static void watch(int from) {
    requests = 0;
    aligned = 0;
    refused = from;
    blocks = 0;
    watches = 1;
}

static void check(const char *call, const char *what, int holds) {
    if (holds) return;
    fprintf(stderr, "requests: wrong: %s: %s, after %d requests\n", call, what, requests);
    failed = 1;
}

/* A table of numbers and one of texts, each with the same keys bound to ten times as much. The
 * first handle makes a call, and the second looks at what it left. */
static cuckoo_handle handles[HANDLES];
static cuckoo_text_handle texts[HANDLES];
static cuckoo_pairs pairs;
static cuckoo_text_pairs text_pairs;

static const char *text_of(uint64_t key) { return &"abcdefgh"[key]; }

static cuckoo_settings settings(void) {
    return (cuckoo_settings){.s = 1, .power = 4, .max = 20, .callers = HANDLES, .turns = 1,
                             .rounds = 4, .min_load = 5};
}

static int32_t open_numbers(void) {
    cuckoo_settings set = settings();
    return cuckoo_open_with(&set, handles, HANDLES);
}

static int32_t open_texts(void) {
    cuckoo_settings set = settings();
    return cuckoo_text_open_with(&set, texts, HANDLES);
}

static void close_all(void) {
    for (int i = 0; i < HANDLES; i++) {
        cuckoo_close(&handles[i]);
        cuckoo_text_close(&texts[i]);
    }
    cuckoo_pairs_close(&pairs);
    cuckoo_text_pairs_close(&text_pairs);
}

static void open_all(void) {
    check("open", "it is opened", open_numbers() == CUCKOO_OK && open_texts() == CUCKOO_OK);
    for (uint64_t key = 0; key < KEYS; key++) {
        check("insert", "a number is bound", cuckoo_insert(&handles[1], key, 10 * key) == CUCKOO_OK);
        check("insert", "a text is bound",
              cuckoo_text_insert(&texts[1], text_of(key), 1, 10 * key) == CUCKOO_OK);
    }
}

/* How many keys a table has of which so many of the first were found; no count where some are lost. */
static uint64_t told(uint64_t found, uint64_t count) {
    return found == KEYS || count == 0 ? count : MOST;
}

static uint64_t numbers(void) {
    uint64_t found = 0;
    uint64_t count = MOST;
    for (uint64_t key = 0; key < KEYS; key++) {
        uint64_t value = 0;
        found += cuckoo_find(&handles[1], key, &value) == CUCKOO_OK && value == 10 * key;
    }
    check("len", "it is answered", cuckoo_len(&handles[1], &count) == CUCKOO_OK);
    return told(found, count);
}

static uint64_t letters(void) {
    uint64_t found = 0;
    uint64_t count = MOST;
    for (uint64_t key = 0; key < KEYS; key++) {
        uint64_t value = 0;
        int32_t code = cuckoo_text_find(&texts[1], text_of(key), 1, &value);
        found += code == CUCKOO_OK && value == 10 * key;
    }
    check("len of texts", "it is answered", cuckoo_text_len(&texts[1], &count) == CUCKOO_OK);
    return told(found, count);
}

/* How many pairs are listed, each with its value and behind those of lesser keys. */
static uint64_t listed(void) {
    uint64_t key;
    uint64_t value;
    uint64_t count = 0;
    watch(0);
    while (cuckoo_pairs_next(&pairs, &key, &value) == CUCKOO_OK)
        if (key == count && value == 10 * key) count++;
    watches = 0;
    check("pairs_next", "it requests none", requests == 0);
    return count;
}

static uint64_t texts_listed(void) {
    char key[64];
    size_t length;
    uint64_t value;
    uint64_t count = 0;
    watch(0);
    while (cuckoo_text_pairs_next(&text_pairs, key, sizeof key, &length, &value) == CUCKOO_OK)
        if (length == 1 && key[0] == *text_of(count) && value == 10 * count) count++;
    watches = 0;
    check("text_pairs_next", "it requests none", requests == 0);
    return count;
}

/* Calls by the first handle. Each is refused for want of memory alone. */
static int32_t grow(void) { return cuckoo_reserve(&handles[0], 4 * SLOTS); }
static int32_t export(void) { return cuckoo_export(&handles[0], &pairs); }
static int32_t drain(void) { return cuckoo_drain(&handles[0], &pairs); }
static int32_t text_grow(void) { return cuckoo_text_reserve(&texts[0], 4 * SLOTS); }
static int32_t text_export(void) { return cuckoo_text_export(&texts[0], &text_pairs); }
static int32_t text_drain(void) { return cuckoo_text_drain(&texts[0], &text_pairs); }
static int32_t text_insert(void) { return cuckoo_text_insert(&texts[0], "new", 3, 5); }
static int32_t text_add(void) { return cuckoo_text_add(&texts[0], "new", 3, 5); }
static int32_t text_assign(void) {
    uint64_t old;
    return cuckoo_text_assign(&texts[0], "new", 3, 5, &old);
}

/* A call, and what it does where it is answered. */
typedef struct subject {
    const char *what;
    int32_t (*call)(void);
    int requests; /* as many at least */
    int unbinds;  /* all keys */
    int lists;    /* all pairs */
    int binds;    /* one more key */
} subject;

static const subject subjects[] = {
    {"reserve", grow, 4, 0, 0, 0},
    {"export", export, 2, 0, 1, 0},
    {"drain", drain, 2, 1, 1, 0},
};

static const subject text_subjects[] = {
    {"reserve texts", text_grow, 4, 0, 0, 0},
    {"export texts", text_export, 2 + KEYS, 0, 1, 0},
    {"drain texts", text_drain, 2, 1, 1, 0},
    {"insert a text", text_insert, 1, 0, 0, 1},
    {"assign a text", text_assign, 1, 0, 0, 1},
    {"add to a text", text_add, 1, 0, 0, 1},
};

static void check_done(const subject *it, uint64_t bound, uint64_t list) {
    uint64_t wanted = it->unbinds ? 0 : KEYS + it->binds;
    check(it->what, "the keys that are bound", bound == wanted);
    check(it->what, "the pairs that are listed", list == (it->lists ? KEYS : 0));
}

/* Makes the call with each of its requests, and all behind it, refused: then nothing has changed, and
 * the same handle makes it where there is memory. */
static void try_subject(const subject *it, uint64_t (*bound)(void), uint64_t (*list)(void)) {
    int32_t code = CUCKOO_NO_MEMORY;
    for (int request = 0; code == CUCKOO_NO_MEMORY && request < MOST; request++) {
        open_all();
        watch(request);
        code = it->call();
        watches = 0;
        if (code == CUCKOO_NO_MEMORY) {
            check(it->what, "no key is lost where it is refused", bound() == KEYS && list() == 0);
            check(it->what, "it is answered later", it->call() == CUCKOO_OK);
            check_done(it, bound(), list());
        } else {
            check(it->what, "it is answered with memory", code == CUCKOO_OK);
            check(it->what, "each request was refused", requests == request);
            check(it->what, "it makes requests", request >= it->requests);
            check_done(it, bound(), list());
        }
        close_all();
    }
}

/* An opening that is refused leaves its handles closed, and no block. */
static void try_opening(const char *what, int32_t (*open)(void)) {
    int32_t code = CUCKOO_NO_MEMORY;
    for (int request = 0; code == CUCKOO_NO_MEMORY && request < MOST; request++) {
        watch(request);
        code = open();
        watches = 0;
        if (code == CUCKOO_NO_MEMORY) check(what, "no block is left", blocks == 0);
        else check(what, "each request was refused", request > HANDLES && requests == request);
        watches = 1;
        close_all();
        check(what, "no block is left when all is closed", blocks == 0);
        watches = 0;
    }
    check(what, "it is answered with memory", code == CUCKOO_OK);
}

/* The buckets of each stripe begin a cache line, in a table that isn't small. */
static void try_large(void) {
    cuckoo_settings set = settings();
    set.power = 8;
    watch(MOST);
    check("open", "a larger table is opened", cuckoo_open_with(&set, handles, HANDLES) == CUCKOO_OK);
    watches = 0;
    check("open", "its stripes' blocks begin a cache line", aligned == 1 << set.s);
    close_all();
}

/* Calls that look into a doubled table free nothing. What was there before goes as keys are put into
 * the stripes: each of these calls takes a block at most, and the next one by the handle frees it. */
static void try_emptied(void) {
    int left;
    open_all();
    watch(MOST);
    check("reserve", "the table doubles", grow() == CUCKOO_OK);
    left = blocks;
    check("reserve", "there are blocks from before", left > 0);
    check("find", "no key is lost", numbers() == KEYS);
    check("find", "it frees none", blocks == left);
    check("insert", "it puts a key", cuckoo_insert(&handles[0], KEYS, 10 * KEYS) == CUCKOO_OK);
    check("insert", "it frees none", blocks == left);
    for (uint64_t key = KEYS + 1; key < SLOTS; key++) {
        int before = blocks;
        check("insert", "there is room", cuckoo_insert(&handles[0], key, 10 * key) == CUCKOO_OK);
        check("insert", "it frees one at most", blocks == before || blocks == before - 1);
    }
    check("insert", "one is left at most", blocks <= 1);
    check("insert", "a key is bound", cuckoo_insert(&handles[0], KEYS, 0) == CUCKOO_PRESENT);
    check("insert", "it frees the last block from before", blocks == 0);
    watches = 0;
    close_all();
}

/* A call that takes no memory is answered where there is none. */
#define NONE(what, call, code)                                       \
    do {                                                             \
        int32_t got;                                                 \
        watch(0);                                                    \
        got = (call);                                                \
        watches = 0;                                                 \
        check(what, "it is answered without memory", got == (code)); \
        check(what, "it requests none", requests == 0);              \
        check(what, "it frees none", blocks == 0);                   \
    } while (0)

static void ask_numbers(cuckoo_handle *handle) {
    uint64_t value;
    cuckoo_entry entries[] = {{3, 0, 0}, {9, 0, 0}};
    cuckoo_change changes[] = {{3, 30, 31}, {4, 40, 41}};
    cuckoo_part parts[] = {{3, 1, 0}, {4, 1, 0}};
    NONE("find", cuckoo_find(handle, 3, &value), CUCKOO_OK);
    NONE("contains", cuckoo_contains(handle, 9), CUCKOO_ABSENT);
    NONE("insert", cuckoo_insert(handle, 9, 90), CUCKOO_OK);
    NONE("assign", cuckoo_assign(handle, 9, 91, &value), CUCKOO_PRESENT);
    NONE("add", cuckoo_add(handle, 10, 1), CUCKOO_OK);
    NONE("update", cuckoo_update(handle, 10, 2, &value), CUCKOO_OK);
    NONE("swap_if", cuckoo_swap_if(handle, 10, 2, 3, &value), CUCKOO_OK);
    NONE("erase_if", cuckoo_erase_if(handle, 10, 3), CUCKOO_OK);
    NONE("rename", cuckoo_rename(handle, 9, 11), CUCKOO_OK);
    NONE("erase", cuckoo_erase(handle, 11, &value), CUCKOO_OK);
    NONE("find_all", cuckoo_find_all(handle, entries, 2), CUCKOO_OK);
    NONE("set_if_all", cuckoo_set_if_all(handle, changes, 2), CUCKOO_OK);
    NONE("move", cuckoo_move(handle, parts, 2), CUCKOO_OK);
    NONE("len", cuckoo_len(handle, &value), CUCKOO_OK);
    NONE("capacity", cuckoo_capacity(handle, &value), CUCKOO_OK);
    NONE("reserve", cuckoo_reserve(handle, SLOTS), CUCKOO_ENOUGH);
    check("the calls", "no key is lost", numbers() == KEYS);
    NONE("clear", cuckoo_clear(handle), CUCKOO_OK);
    NONE("len of none", cuckoo_len(handle, &value), CUCKOO_OK);
    check("clear", "no key is bound", value == 0);
}

static void ask_texts(cuckoo_text_handle *handle) {
    uint64_t value;
    NONE("text_find", cuckoo_text_find(handle, "d", 1, &value), CUCKOO_OK);
    NONE("text_contains", cuckoo_text_contains(handle, "x", 1), CUCKOO_ABSENT);
    NONE("text_update", cuckoo_text_update(handle, "d", 1, 31, &value), CUCKOO_OK);
    NONE("text_swap_if", cuckoo_text_swap_if(handle, "d", 1, 31, 30, &value), CUCKOO_OK);
    NONE("text_erase_if", cuckoo_text_erase_if(handle, "d", 1, 31), CUCKOO_DIFFERENT);
    NONE("text_erase", cuckoo_text_erase(handle, "x", 1, &value), CUCKOO_ABSENT);
    NONE("text_len", cuckoo_text_len(handle, &value), CUCKOO_OK);
    NONE("text_capacity", cuckoo_text_capacity(handle, &value), CUCKOO_OK);
    NONE("text_reserve", cuckoo_text_reserve(handle, SLOTS), CUCKOO_ENOUGH);
    check("the calls on texts", "no key is lost", letters() == KEYS);
    watch(0);
    check("text_clear", "it is answered without memory", cuckoo_text_clear(handle) == CUCKOO_OK);
    watches = 0;
    check("text_clear", "it requests none, and frees the keys", requests == 0 && blocks == -KEYS);
    NONE("text_len of none", cuckoo_text_len(handle, &value), CUCKOO_OK);
    check("text_clear", "no key is bound", value == 0);
}

int main(void) {
    try_opening("open", open_numbers);
    try_opening("open texts", open_texts);
    try_large();
    try_emptied();
    for (size_t i = 0; i < sizeof subjects / sizeof subjects[0]; i++)
        try_subject(&subjects[i], numbers, listed);
    for (size_t i = 0; i < sizeof text_subjects / sizeof text_subjects[0]; i++)
        try_subject(&text_subjects[i], letters, texts_listed);
    open_all();
    ask_numbers(&handles[0]);
    ask_texts(&texts[0]);
    close_all();
    puts(failed ? "failed" : "passed");
    return failed;
}
