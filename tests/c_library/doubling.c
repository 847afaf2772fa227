/* A doubling whose memory is refused, or is requested while other handles insert: what each call
 * answers, how many requests it makes, and what stays; tables that may not grow; and a rename of
 * texts whose copies are refused. Between two requests the program's own malloc and aligned_alloc, which
 * the linker puts in by --wrap, can refuse and can make other calls. */
#include <cuckoo_map.h>
#include <pthread.h>
#include <semaphore.h>
#include <stdint.h>
#include <stdio.h>
#include <stdlib.h>
#include <time.h>

/* The table has so many stripes, and opens with so many slots. */
enum { STRIPES = 4, SLOTS = 32, HANDLES = 3, FOR_EVER = 1 << 30 };

/* A doubling requests a list, and a block for each stripe. */
enum { REQUESTS = 1 + STRIPES };

/* What this thread's requests meet: they are counted, those from one on up to another are refused,
 * and something is done before one of them. */
typedef struct watch {
    int counts;
    int requests;
    int from;
    int until;
    int before;
    void (*action)(void);
} watch;

static _Thread_local watch watched;
static int failed;

void *__real_malloc(size_t size);
void *__wrap_malloc(size_t size);
void *__real_aligned_alloc(size_t alignment, size_t size);
void *__wrap_aligned_alloc(size_t alignment, size_t size);

/* What a request meets: whether it is refused. */
static int is_refused(void) {
    int request;
    if (!watched.counts) return 0;
    request = watched.requests++;
    if (watched.action != NULL && request == watched.before) {
        watch mine = watched;
        watched = (watch){0};
        mine.action();
        watched = mine;
    }
    return watched.from <= request && request < watched.until;
}

void *__wrap_malloc(size_t size) { return is_refused() ? NULL : __real_malloc(size); }

void *__wrap_aligned_alloc(size_t alignment, size_t size) {
    return is_refused() ? NULL : __real_aligned_alloc(alignment, size);
}

static void check(const char *what, int holds) {
    if (holds) return;
    fprintf(stderr, "doubling: wrong: %s\n", what);
    failed = 1;
}

/* A table of handles, with as many keys as it takes until others have no room. */
static cuckoo_handle handles[HANDLES];
static uint64_t count;

/* Two keys that have no room then. */
static uint64_t first;
static uint64_t second;

static cuckoo_settings settings_of(uint32_t max, uint32_t turns) {
    return (cuckoo_settings){.s = 2, .power = 3, .max = max, .callers = HANDLES, .turns = turns,
                             .rounds = 4, .min_load = 5};
}

static void open_as(cuckoo_settings settings) {
    for (int i = 0; i < HANDLES; i++) handles[i] = (cuckoo_handle)CUCKOO_CLOSED_HANDLE;
    check("a table is opened", cuckoo_open_with(&settings, handles, HANDLES) == CUCKOO_OK);
}

static void open_all(uint32_t max, uint32_t turns) { open_as(settings_of(max, turns)); }

static void close_all(void) {
    for (int i = 0; i < HANDLES; i++) cuckoo_close(&handles[i]);
}

static void fill(void) {
    for (uint64_t key = 0; key < count; key++)
        check("a key has room", cuckoo_insert(&handles[0], key, key + 1) == CUCKOO_OK);
}

static void begin(uint32_t turns) {
    open_all(5, turns);
    fill();
}

static uint64_t capacity(void) {
    uint64_t slots = 0;
    check("the slots are told", cuckoo_capacity(&handles[2], &slots) == CUCKOO_OK);
    return slots;
}

static int is_bound(uint64_t key) {
    uint64_t value = 0;
    int32_t code = cuckoo_find(&handles[2], key, &value);
    check("a key is found, with its value", code == CUCKOO_ABSENT || value == key + 1);
    return code == CUCKOO_OK;
}

/* The keys that were there are there, and of the two others those that are said. */
static void check_table(int has_first, int has_second, uint64_t slots) {
    uint64_t len = 0;
    for (uint64_t key = 0; key < count; key++) check("a key is still bound", is_bound(key));
    check("the first key", is_bound(first) == has_first);
    check("the second key", is_bound(second) == has_second);
    check("no other key is bound", cuckoo_len(&handles[2], &len) == CUCKOO_OK &&
                                       len == count + has_first + has_second);
    check("the table has so many slots", capacity() == slots);
}

/* Whether the key has no room in the table as it is filled. */
static int has_no_room(uint64_t key) {
    int32_t code;
    open_all(3, 64);
    fill();
    code = cuckoo_insert(&handles[0], key, key + 1);
    close_all();
    return code == CUCKOO_FULL;
}

static void choose_keys(void) {
    open_all(3, 64);
    while (count < SLOTS && cuckoo_insert(&handles[0], count, count + 1) == CUCKOO_OK) count++;
    close_all();
    check("a table is full at last", count > SLOTS / 2 && count <= SLOTS);
    for (first = 1000; !has_no_room(first) && first < 2000; first++) continue;
    for (second = first + 1; !has_no_room(second) && second < 2000; second++) continue;
    check("two keys have no room", second < 2000);
}

/* Inserts a key by a handle while its requests from one on up to another are refused. */
static int32_t insert_refused(int handle, uint64_t key, int from, int until) {
    int32_t code;
    watched = (watch){.counts = 1, .from = from, .until = until};
    code = cuckoo_insert(&handles[handle], key, key + 1);
    watched.counts = 0;
    return code;
}

/* What displaces entries requests nothing, nor does what finds the table full. */
static void try_full(void) {
    open_all(3, 64);
    watched = (watch){.counts = 1};
    fill();
    check("it is full", cuckoo_insert(&handles[0], first, 1) == CUCKOO_FULL);
    watched.counts = 0;
    check("without a request", watched.requests == 0);
    close_all();
}

/* Keys that have the same two buckets in a table of eight. */
static const uint64_t alike[] = {5, 27, 35, 38, 53, 64, 66, 121, 129, 143};

/* Where they fill their buckets, the table is too empty to grow. One caller requests a doubling for
 * that in vain; those after it request nothing. */
static void try_too_empty(void) {
    cuckoo_settings settings = settings_of(5, 64);
    settings.min_load = 50;
    open_as(settings);
    for (int i = 0; i < 8; i++)
        check("a key has room", cuckoo_insert(&handles[0], alike[i], alike[i] + 1) == CUCKOO_OK);
    check("the table is too empty", insert_refused(0, alike[8], 0, 0) == CUCKOO_LOAD_TOO_LOW);
    check("a doubling is requested", watched.requests == REQUESTS);
    for (int handle = 0; handle < HANDLES; handle++)
        for (int i = 8; i < 10; i++) {
            check("it still is", insert_refused(handle, alike[i], 0, 0) == CUCKOO_LOAD_TOO_LOW);
            check("nothing is requested", watched.requests == 0);
        }
    check("it has not grown", capacity() == SLOTS);
    check("it is made to", cuckoo_reserve(&handles[0], 2 * SLOTS) == CUCKOO_OK);
    check("then there is room", insert_refused(1, alike[8], 0, 0) == CUCKOO_OK);
    for (int i = 0; i < 9; i++) check("a key is bound", is_bound(alike[i]));
    close_all();
}

/* The same, with an action before a request, of which none is refused. */
static int32_t insert_amid(int handle, uint64_t key, int before, void (*action)(void)) {
    int32_t code;
    watched = (watch){.counts = 1, .before = before, .action = action};
    code = cuckoo_insert(&handles[handle], key, key + 1);
    watched.counts = 0;
    return code;
}

static void find_amid(void) {
    for (uint64_t key = 0; key < count; key++) check("no stripe is held", is_bound(key));
}

/* No stripe is held while one caller requests. */
static void try_prepared(cuckoo_settings settings) {
    int requests = 1 + (1 << settings.s);
    for (int before = 0; before < requests; before++) {
        open_as(settings);
        fill();
        check("the key is inserted", insert_amid(0, first, before, find_amid) == CUCKOO_OK);
        check("a request a stripe, and one", watched.requests == requests);
        check_table(1, 0, (uint64_t)8 << settings.power);
        close_all();
    }
}

/* A table of many buckets in one stripe, so that it requests a large block. */
static cuckoo_settings large_settings(uint32_t max) {
    cuckoo_settings settings = settings_of(max, 1);
    settings.s = 0;
    settings.power = 10;
    return settings;
}

/* The keys from 0 on that it takes until the next one has no room: the keys of such tables. */
static void choose_large_keys(void) {
    open_as(large_settings(10));
    for (count = 0; cuckoo_insert(&handles[0], count, count + 1) == CUCKOO_OK;) count++;
    close_all();
    check("a large table is full at last", count > 2048 && count <= 4096);
    first = count;
    second = count + 1;
}

/* Each request is refused, once or from then on. */
static void try_each_refused(void) {
    for (int request = 0; request < REQUESTS; request++) {
        begin(1000);
        check("there is no memory",
              insert_refused(0, first, request, FOR_EVER) == CUCKOO_NO_MEMORY);
        check_table(0, 0, SLOTS);
        check("later there is", insert_refused(1, first, 0, 0) == CUCKOO_OK);
        check("which is requested before the stripes are held", watched.requests == REQUESTS);
        check_table(1, 0, 2 * SLOTS);
        close_all();

        begin(1000);
        check("what was refused is requested again",
              insert_refused(0, first, request, request + 1) == CUCKOO_OK);
        check("for each stripe", watched.requests == request + 1 + STRIPES);
        check_table(1, 0, 2 * SLOTS);
        close_all();
    }
}

static int32_t code_amid;

static void insert_second_amid(void) { code_amid = insert_refused(1, second, 0, 0); }

static void refuse_second_amid(void) { code_amid = insert_refused(1, second, 0, FOR_EVER); }

/* While one caller requests, another waits for it some time, in vain: then it doubles the table
 * itself, or is refused. */
static void try_taken(void) {
    for (int before = 0; before < REQUESTS; before++) {
        begin(1);
        check("the first key is inserted",
              insert_amid(0, first, before, insert_second_amid) == CUCKOO_OK);
        check("the second too", code_amid == CUCKOO_OK);
        check_table(1, 1, 2 * SLOTS);
        close_all();

        begin(1);
        check("the first key is inserted",
              insert_amid(0, first, before, refuse_second_amid) == CUCKOO_OK);
        check("the second is refused", code_amid == CUCKOO_NO_MEMORY);
        check_table(1, 0, 2 * SLOTS);
        close_all();
    }
}

/* A key among those that are bound whose slot is no room for the first key. */
static uint64_t chosen_to_rename(void) {
    uint64_t key = 0;
    open_all(3, 64);
    fill();
    while (key < count && cuckoo_rename(&handles[0], key, first) == CUCKOO_OK) {
        check("it is renamed back", cuckoo_rename(&handles[0], first, key) == CUCKOO_OK);
        key++;
    }
    check("a key is chosen", key < count);
    close_all();
    return key;
}

/* A rename that needs room doubles the table, or is refused. */
static void try_rename(void) {
    uint64_t key = chosen_to_rename();
    uint64_t value = 0;
    begin(1000);
    watched = (watch){.counts = 1, .until = FOR_EVER};
    check("there is no memory", cuckoo_rename(&handles[0], key, first) == CUCKOO_NO_MEMORY);
    watched.counts = 0;
    check_table(0, 0, SLOTS);
    watched = (watch){.counts = 1};
    check("later there is", cuckoo_rename(&handles[1], key, first) == CUCKOO_OK);
    watched.counts = 0;
    check("a request a stripe, and one", watched.requests == REQUESTS);
    check("the value went over",
          cuckoo_find(&handles[2], first, &value) == CUCKOO_OK && value == key + 1);
    check("the key is unbound", cuckoo_contains(&handles[2], key) == CUCKOO_ABSENT);
    check("it is renamed back", cuckoo_rename(&handles[0], first, key) == CUCKOO_OK);
    check_table(0, 0, 2 * SLOTS);
    close_all();
}

/* A thread that inserts the second key while the first one's memory is requested. */
static sem_t may_begin;
static long nanoseconds_amid;
static int refused_amid;
static int requests_amid;

static void *insert_second(void *unused) {
    (void)unused;
    sem_wait(&may_begin);
    code_amid = insert_refused(1, second, 0, refused_amid ? FOR_EVER : 0);
    requests_amid = watched.requests;
    return NULL;
}

static void let_it_wait(void) {
    sem_post(&may_begin);
    nanosleep(&(struct timespec){.tv_nsec = nanoseconds_amid}, NULL);
}

static int32_t insert_beside(uint32_t turns, int first_is_refused, int second_is_refused) {
    pthread_t other;
    int32_t code;
    begin(turns);
    refused_amid = second_is_refused;
    check("a semaphore", sem_init(&may_begin, 0, 0) == 0);
    check("a thread begins", pthread_create(&other, NULL, insert_second, NULL) == 0);
    watched = (watch){.counts = 1, .from = 1, .until = first_is_refused ? FOR_EVER : 0,
                      .before = 1, .action = let_it_wait};
    code = cuckoo_insert(&handles[0], first, first + 1);
    watched.counts = 0;
    pthread_join(other, NULL);
    sem_destroy(&may_begin);
    return code;
}

/* Another caller waits for the one that requests, and looks again. */
static void try_waiting(void) {
    nanoseconds_amid = 20000000;
    check("the first key is inserted", insert_beside(UINT32_MAX, 0, 0) == CUCKOO_OK);
    check("the second too", code_amid == CUCKOO_OK);
    check("without a request", requests_amid == 0);
    check_table(1, 1, 2 * SLOTS);
    close_all();

    check("the first key is refused", insert_beside(UINT32_MAX, 1, 0) == CUCKOO_NO_MEMORY);
    check("the second is inserted", code_amid == CUCKOO_OK);
    check("which makes the requests", requests_amid == REQUESTS);
    check_table(0, 1, 2 * SLOTS);
    close_all();

    check("the first key is refused", insert_beside(UINT32_MAX, 1, 1) == CUCKOO_NO_MEMORY);
    check("the second too", code_amid == CUCKOO_NO_MEMORY);
    check_table(0, 0, SLOTS);
    check("later it is inserted", insert_refused(0, second, 0, 0) == CUCKOO_OK);
    check_table(0, 1, 2 * SLOTS);
    close_all();
}

/* One of few turns waits too, where that takes a millisecond. It is tried again, since a machine that
 * does much besides may make more of it, or put a thread off its processor while it holds stripes,
 * so that the other is busy. */
static void try_few_turns(void) {
    int has_waited = 0;
    nanoseconds_amid = 1000000;
    for (int round = 0; !has_waited && round < 10; round++) {
        int32_t code = insert_beside(64, 0, 0);
        int is_busy = code == CUCKOO_BUSY || code_amid == CUCKOO_BUSY;
        check("the first key is inserted", is_busy || code == CUCKOO_OK);
        check("the second too", is_busy || code_amid == CUCKOO_OK);
        if (!is_busy) check_table(1, 1, 2 * SLOTS);
        has_waited = !is_busy && requests_amid == 0;
        close_all();
    }
    check("without a request", has_waited);
}

/* A rename of texts copies both. Where either copy is refused, nothing changes. */
static void try_text_rename(void) {
    cuckoo_text_handle text = CUCKOO_CLOSED_HANDLE;
    uint64_t value = 0;
    check("a table is opened", cuckoo_text_open(100, 64, &text, 1) == CUCKOO_OK);
    check("a key is bound", cuckoo_text_insert(&text, "from", 4, 10) == CUCKOO_OK);
    for (int request = 0; request < 2; request++) {
        watched = (watch){.counts = 1, .from = request, .until = request + 1};
        check("there is no memory",
              cuckoo_text_rename(&text, "from", 4, "to", 2) == CUCKOO_NO_MEMORY);
        watched.counts = 0;
        check("the second is unbound", cuckoo_text_contains(&text, "to", 2) == CUCKOO_ABSENT);
        check("the first is bound",
              cuckoo_text_find(&text, "from", 4, &value) == CUCKOO_OK && value == 10);
    }
    check("later there is", cuckoo_text_rename(&text, "from", 4, "to", 2) == CUCKOO_OK);
    check("the value went over",
          cuckoo_text_find(&text, "to", 2, &value) == CUCKOO_OK && value == 10);
    cuckoo_text_close(&text);
}

int main(void) {
    choose_keys();
    try_full();
    try_too_empty();
    try_prepared(settings_of(5, 1));
    try_each_refused();
    try_taken();
    try_rename();
    try_waiting();
    try_few_turns();
    try_text_rename();
    choose_large_keys();
    try_prepared(large_settings(12));
    puts(failed ? "failed" : "passed");
    return failed;
}
