/* Each code that cuckoo_map.h names, of a call that gives it. It prints a line for each, and exits
 * with status 1 where a code is another one, or where a refused call changed something. */
#include <cuckoo_map.h>
#include <pthread.h>
#include <sched.h>
#include <stdatomic.h>
#include <stdio.h>
#include <string.h>
#include <sys/resource.h>
#include <time.h>

#if defined(__SANITIZE_ADDRESS__) || defined(__SANITIZE_THREAD__)
#define HAS_SANITIZER 1
#elif defined(__has_feature)
#define HAS_SANITIZER (__has_feature(address_sanitizer) || __has_feature(thread_sanitizer))
#else
#define HAS_SANITIZER 0
#endif

/* What a place has before a call, to see whether it stays. */
#define UNTOUCHED 77

static int failed;

static const char *name_of(int32_t code) {
    static const char *const refusals[] = {"BUSY", "NO_MEMORY", "FULL", "LOAD_TOO_LOW", "OVER_MAX",
                                           "BAD_SETTINGS", "TOO_LONG", "CLOSED", "IS_OPEN",
                                           "TWICE", "BAD_COUNT"};
    static const char *const answers[] = {"OK", "ABSENT", "PRESENT", "DIFFERENT", "ENOUGH",
                                          "SHORT"};
    if (code >= 0 && code <= CUCKOO_SHORT) return answers[code];
    if (code < 0 && code >= CUCKOO_BAD_COUNT) return refusals[-1 - code];
    return "no code";
}

static void check(const char *what, int holds) {
    if (holds) return;
    fprintf(stderr, "misuse: wrong: %s\n", what);
    failed = 1;
}

static void expect(const char *what, int32_t code, int32_t wanted) {
    printf("%s: %s\n", what, name_of(code));
    if (code == wanted) return;
    fprintf(stderr, "misuse: %s: %s was wanted\n", what, name_of(wanted));
    failed = 1;
}

static cuckoo_settings settings_of(uint32_t power, uint32_t max, uint32_t callers, uint32_t load) {
    return (cuckoo_settings){.s = 0, .power = power, .max = max, .callers = callers, .turns = 64,
                             .rounds = 4, .min_load = load};
}

static cuckoo_handle open_one(cuckoo_settings settings) {
    cuckoo_handle handle = CUCKOO_CLOSED_HANDLE;
    check("a table is opened", cuckoo_open_with(&settings, &handle, 1) == CUCKOO_OK);
    return handle;
}

/* All calls through a closed handle on numbers. */
static void try_closed(const char *name, cuckoo_handle *handle) {
    uint64_t place = UNTOUCHED;
    cuckoo_pairs pairs = CUCKOO_NO_PAIRS;
    cuckoo_entry entry = {1, UNTOUCHED, UNTOUCHED};
    cuckoo_change change = {1, 2, 3};
    cuckoo_part part = {1, 2, 3};
    printf("%s\n", name);
    expect("  find", cuckoo_find(handle, 1, &place), CUCKOO_CLOSED);
    expect("  contains", cuckoo_contains(handle, 1), CUCKOO_CLOSED);
    expect("  find_all", cuckoo_find_all(handle, &entry, 1), CUCKOO_CLOSED);
    expect("  set_if_all", cuckoo_set_if_all(handle, &change, 1), CUCKOO_CLOSED);
    expect("  move", cuckoo_move(handle, &part, 1), CUCKOO_CLOSED);
    expect("  find_all of none", cuckoo_find_all(handle, &entry, 0), CUCKOO_BAD_COUNT);
    expect("  set_if_all of none", cuckoo_set_if_all(handle, &change, 0), CUCKOO_BAD_COUNT);
    expect("  move of none", cuckoo_move(handle, &part, 0), CUCKOO_BAD_COUNT);
    check("a refused call leaves its entry", entry.value == UNTOUCHED && entry.bound == UNTOUCHED);
    expect("  insert", cuckoo_insert(handle, 1, 2), CUCKOO_CLOSED);
    expect("  assign", cuckoo_assign(handle, 1, 2, &place), CUCKOO_CLOSED);
    expect("  add", cuckoo_add(handle, 1, 2), CUCKOO_CLOSED);
    expect("  update", cuckoo_update(handle, 1, 2, &place), CUCKOO_CLOSED);
    expect("  swap_if", cuckoo_swap_if(handle, 1, 2, 3, &place), CUCKOO_CLOSED);
    expect("  erase", cuckoo_erase(handle, 1, &place), CUCKOO_CLOSED);
    expect("  erase_if", cuckoo_erase_if(handle, 1, 2), CUCKOO_CLOSED);
    expect("  rename", cuckoo_rename(handle, 1, 2), CUCKOO_CLOSED);
    expect("  rename a key to itself", cuckoo_rename(handle, 1, 1), CUCKOO_CLOSED);
    expect("  len", cuckoo_len(handle, &place), CUCKOO_CLOSED);
    expect("  capacity", cuckoo_capacity(handle, &place), CUCKOO_CLOSED);
    expect("  reserve", cuckoo_reserve(handle, 1000), CUCKOO_CLOSED);
    expect("  clear", cuckoo_clear(handle), CUCKOO_CLOSED);
    expect("  export", cuckoo_export(handle, &pairs), CUCKOO_CLOSED);
    expect("  drain", cuckoo_drain(handle, &pairs), CUCKOO_CLOSED);
    expect("  the next of no pairs", cuckoo_pairs_next(&pairs, &place, &place), CUCKOO_ABSENT);
    check("a refused call leaves its places", place == UNTOUCHED);
    cuckoo_pairs_close(&pairs);
    cuckoo_close(handle);
}

/* The same on texts. */
static void try_closed_text(const char *name, cuckoo_text_handle *handle) {
    const uint8_t *key = (const uint8_t *)"key";
    uint8_t bytes[64];
    size_t length = UNTOUCHED;
    uint64_t place = UNTOUCHED;
    cuckoo_text_pairs pairs = CUCKOO_NO_PAIRS;
    printf("%s\n", name);
    expect("  find", cuckoo_text_find(handle, key, 3, &place), CUCKOO_CLOSED);
    expect("  contains", cuckoo_text_contains(handle, key, 3), CUCKOO_CLOSED);
    expect("  insert", cuckoo_text_insert(handle, key, 3, 2), CUCKOO_CLOSED);
    expect("  assign", cuckoo_text_assign(handle, key, 3, 2, &place), CUCKOO_CLOSED);
    expect("  add", cuckoo_text_add(handle, key, 3, 2), CUCKOO_CLOSED);
    expect("  update", cuckoo_text_update(handle, key, 3, 2, &place), CUCKOO_CLOSED);
    expect("  swap_if", cuckoo_text_swap_if(handle, key, 3, 2, 3, &place), CUCKOO_CLOSED);
    expect("  erase", cuckoo_text_erase(handle, key, 3, &place), CUCKOO_CLOSED);
    expect("  erase_if", cuckoo_text_erase_if(handle, key, 3, 2), CUCKOO_CLOSED);
    expect("  rename", cuckoo_text_rename(handle, key, 3, key, 2), CUCKOO_CLOSED);
    expect("  len", cuckoo_text_len(handle, &place), CUCKOO_CLOSED);
    expect("  capacity", cuckoo_text_capacity(handle, &place), CUCKOO_CLOSED);
    expect("  reserve", cuckoo_text_reserve(handle, 1000), CUCKOO_CLOSED);
    expect("  clear", cuckoo_text_clear(handle), CUCKOO_CLOSED);
    expect("  export", cuckoo_text_export(handle, &pairs), CUCKOO_CLOSED);
    expect("  drain", cuckoo_text_drain(handle, &pairs), CUCKOO_CLOSED);
    expect("  the next of no pairs",
           cuckoo_text_pairs_next(&pairs, bytes, sizeof bytes, &length, &place), CUCKOO_ABSENT);
    check("a refused call leaves its places", place == UNTOUCHED && length == UNTOUCHED);
    cuckoo_text_pairs_close(&pairs);
    cuckoo_text_close(handle);
}

/* Handles that were never opened, and that were closed, once and twice. */
static void try_closed_handles(void) {
    cuckoo_handle never = CUCKOO_CLOSED_HANDLE;
    cuckoo_text_handle never_text = CUCKOO_CLOSED_HANDLE;
    try_closed("a handle that was never opened", &never);
    try_closed_text("one of texts that was never opened", &never_text);

    cuckoo_handle two[] = {CUCKOO_CLOSED_HANDLE, CUCKOO_CLOSED_HANDLE};
    cuckoo_text_handle text = CUCKOO_CLOSED_HANDLE;
    check("a table is opened", cuckoo_open(100, 64, two, 2) == CUCKOO_OK);
    check("a table is opened", cuckoo_text_open(100, 64, &text, 1) == CUCKOO_OK);
    check("a key is bound", cuckoo_insert(&two[0], 1, 10) == CUCKOO_OK);
    cuckoo_close(&two[0]);
    cuckoo_text_close(&text);
    try_closed("a handle that was closed", &two[0]);
    try_closed_text("one of texts that was closed", &text);

    uint64_t value = 0;
    check("the other handle has the key", cuckoo_find(&two[1], 1, &value) == CUCKOO_OK);
    check("with its value", value == 10);
    cuckoo_close(&two[1]);
}

/* What is open is not opened again. */
static void try_open_twice(void) {
    cuckoo_handle places[] = {CUCKOO_CLOSED_HANDLE, open_one(settings_of(4, 4, 1, 0))};
    uint64_t key = 0;
    uint64_t value = 0;
    check("a key is bound", cuckoo_insert(&places[1], 1, 10) == CUCKOO_OK);
    puts("open twice");
    expect("  the second of two places is open", cuckoo_open(100, 64, places, 2), CUCKOO_IS_OPEN);
    expect("  the first stays closed", cuckoo_contains(&places[0], 1), CUCKOO_CLOSED);
    expect("  the second stays as it was", cuckoo_find(&places[1], 1, &value), CUCKOO_OK);

    cuckoo_pairs pairs = CUCKOO_NO_PAIRS;
    check("pairs are copied", cuckoo_export(&places[1], &pairs) == CUCKOO_OK);
    expect("  pairs that are open, to export", cuckoo_export(&places[1], &pairs), CUCKOO_IS_OPEN);
    expect("  pairs that are open, to drain", cuckoo_drain(&places[1], &pairs), CUCKOO_IS_OPEN);
    expect("  the key stays bound", cuckoo_contains(&places[1], 1), CUCKOO_OK);
    expect("  the pairs stay", cuckoo_pairs_next(&pairs, &key, &value), CUCKOO_OK);
    check("the pair is read", key == 1 && value == 10);
    expect("  and end", cuckoo_pairs_next(&pairs, &key, &value), CUCKOO_ABSENT);
    cuckoo_pairs_close(&pairs);
    cuckoo_close(&places[1]);
}

static void try_settings(const char *name, cuckoo_settings settings, size_t count) {
    cuckoo_handle places[2] = {CUCKOO_CLOSED_HANDLE, CUCKOO_CLOSED_HANDLE};
    expect(name, cuckoo_open_with(&settings, places, count), CUCKOO_BAD_SETTINGS);
    expect("    the place stays closed", cuckoo_contains(&places[0], 1), CUCKOO_CLOSED);
}

/* Each setting out of its range. */
static void try_bad_settings(void) {
    static cuckoo_handle many[1025];
    static cuckoo_text_handle texts[1025];
    cuckoo_settings good = settings_of(4, 8, 1, 5);
    cuckoo_settings bad;
    puts("bad settings");
    bad = good, bad.s = 5, try_settings("  more stripes than buckets", bad, 1);
    bad = good, bad.power = bad.max = 12, bad.s = 11, try_settings("  stripes of 2^11", bad, 1);
    bad = good, bad.power = 0, try_settings("  power 0", bad, 1);
    bad = good, bad.power = 9, try_settings("  power beyond max", bad, 1);
    bad = good, bad.max = 27, try_settings("  max 27", bad, 1);
    bad = good, bad.callers = 2, try_settings("  two callers in one place", bad, 1);
    try_settings("  one caller in two places", good, 2);
    bad = good, bad.callers = 0, try_settings("  no callers", bad, 0);
    bad = good, bad.turns = 0, try_settings("  no turns", bad, 1);
    bad = good, bad.rounds = 65, try_settings("  rounds 65", bad, 1);
    bad = good, bad.min_load = 101, try_settings("  min_load 101", bad, 1);
    expect("  no turns, for keys", cuckoo_open(100, 0, many, 1), CUCKOO_BAD_SETTINGS);
    expect("  no place", cuckoo_open(100, 64, many, 0), CUCKOO_BAD_SETTINGS);
    expect("  1025 places", cuckoo_open(100, 64, many, 1025), CUCKOO_BAD_SETTINGS);
    expect("  of texts", cuckoo_text_open(100, 64, texts, 1025), CUCKOO_BAD_SETTINGS);
    expect("  1024 places", cuckoo_open(100, 64, many, 1024), CUCKOO_OK);
    expect("  of texts", cuckoo_text_open(100, 64, texts, 1024), CUCKOO_OK);
    expect("  the last is open", cuckoo_contains(&many[1023], 1), CUCKOO_ABSENT);
    expect("  of texts", cuckoo_text_contains(&texts[1023], "", 0), CUCKOO_ABSENT);
    for (int i = 0; i < 1024; i++) {
        cuckoo_close(&many[i]);
        cuckoo_text_close(&texts[i]);
    }
}

/* Texts of 65 bytes are refused, and of 64 and none are not. */
static void try_long_texts(void) {
    uint8_t key[65];
    uint64_t place = UNTOUCHED;
    cuckoo_text_handle text = CUCKOO_CLOSED_HANDLE;
    cuckoo_text_handle *handle = &text;
    memset(key, 'x', sizeof key);
    check("a table is opened", cuckoo_text_open(100, 64, handle, 1) == CUCKOO_OK);
    puts("a text of 65 bytes");
    expect("  find", cuckoo_text_find(handle, key, 65, &place), CUCKOO_TOO_LONG);
    expect("  contains", cuckoo_text_contains(handle, key, 65), CUCKOO_TOO_LONG);
    expect("  insert", cuckoo_text_insert(handle, key, 65, 2), CUCKOO_TOO_LONG);
    expect("  assign", cuckoo_text_assign(handle, key, 65, 2, &place), CUCKOO_TOO_LONG);
    expect("  add", cuckoo_text_add(handle, key, 65, 2), CUCKOO_TOO_LONG);
    expect("  update", cuckoo_text_update(handle, key, 65, 2, &place), CUCKOO_TOO_LONG);
    expect("  swap_if", cuckoo_text_swap_if(handle, key, 65, 2, 3, &place), CUCKOO_TOO_LONG);
    expect("  erase", cuckoo_text_erase(handle, key, 65, &place), CUCKOO_TOO_LONG);
    expect("  erase_if", cuckoo_text_erase_if(handle, key, 65, 2), CUCKOO_TOO_LONG);
    check("a refused call leaves its places", place == UNTOUCHED);
    expect("  one of 64 bytes", cuckoo_text_insert(handle, key, 64, 2), CUCKOO_OK);
    expect("  one of none", cuckoo_text_insert(handle, key, 0, 3), CUCKOO_OK);
    expect("  rename it", cuckoo_text_rename(handle, key, 65, key, 1), CUCKOO_TOO_LONG);
    expect("  rename to it", cuckoo_text_rename(handle, key, 64, key, 65), CUCKOO_TOO_LONG);
    expect("  rename it to itself", cuckoo_text_rename(handle, key, 65, key, 65), CUCKOO_TOO_LONG);
    check("both are bound", cuckoo_text_len(handle, &place) == CUCKOO_OK && place == 2);
    cuckoo_text_close(handle);
}

/* The answers that are no refusals, but OK. */
static void try_answers(void) {
    cuckoo_handle handle = open_one(settings_of(4, 8, 1, 5));
    uint64_t place = UNTOUCHED;
    puts("answers");
    expect("  insert", cuckoo_insert(&handle, 1, 10), CUCKOO_OK);
    expect("  insert a bound key", cuckoo_insert(&handle, 1, 11), CUCKOO_PRESENT);
    expect("  assign an unbound key", cuckoo_assign(&handle, 2, 20, &place), CUCKOO_OK);
    expect("  add to an unbound key", cuckoo_add(&handle, 3, 30), CUCKOO_OK);
    expect("  find an unbound key", cuckoo_find(&handle, 4, &place), CUCKOO_ABSENT);
    expect("  update an unbound key", cuckoo_update(&handle, 4, 40, &place), CUCKOO_ABSENT);
    expect("  swap_if of it", cuckoo_swap_if(&handle, 4, 1, 2, &place), CUCKOO_ABSENT);
    expect("  erase_if of it", cuckoo_erase_if(&handle, 4, 1), CUCKOO_ABSENT);
    expect("  erase it", cuckoo_erase(&handle, 4, &place), CUCKOO_ABSENT);
    check("a call without a value leaves its place", place == UNTOUCHED);
    expect("  swap_if of another value", cuckoo_swap_if(&handle, 1, 9, 8, &place),
           CUCKOO_DIFFERENT);
    check("which is seen", place == 10);
    place = UNTOUCHED;
    expect("  swap_if of its value", cuckoo_swap_if(&handle, 1, 10, 10, &place), CUCKOO_OK);
    check("which is seen too", place == 10);
    expect("  erase_if of another value", cuckoo_erase_if(&handle, 1, 9), CUCKOO_DIFFERENT);
    expect("  assign a bound key", cuckoo_assign(&handle, 1, UINT64_MAX - 1, &place),
           CUCKOO_PRESENT);
    check("whose value is told", place == 10);
    expect("  add beyond the greatest number", cuckoo_add(&handle, 1, 5), CUCKOO_PRESENT);
    expect("  find it", cuckoo_find(&handle, 1, &place), CUCKOO_OK);
    check("it is the greatest number", place == UINT64_MAX);
    expect("  reserve what there is", cuckoo_reserve(&handle, 64), CUCKOO_ENOUGH);
    expect("  reserve more", cuckoo_reserve(&handle, 65), CUCKOO_OK);
    check("it has twice as many slots", cuckoo_capacity(&handle, &place) == 0 && place == 128);
    expect("  reserve more than the greatest size", cuckoo_reserve(&handle, 1025), CUCKOO_OVER_MAX);
    cuckoo_close(&handle);
}

/* Whether both keys have these values at one moment. */
static int have(cuckoo_handle *handle, uint64_t a, uint64_t of_a, uint64_t b, uint64_t of_b) {
    cuckoo_entry entries[] = {{a, UNTOUCHED, UNTOUCHED}, {b, UNTOUCHED, UNTOUCHED}};
    return cuckoo_find_all(handle, entries, 2) == CUCKOO_OK && entries[0].bound == 1 &&
           entries[1].bound == 1 && entries[0].value == of_a && entries[1].value == of_b;
}

/* Calls on several keys: too many of them, none, one twice, and each answer. */
static void try_several(void) {
    cuckoo_handle handle = open_one(settings_of(4, 8, 1, 5));
    cuckoo_entry entries[9];
    cuckoo_change changes[9];
    cuckoo_part parts[9];
    for (uint64_t i = 0; i < 9; i++) {
        entries[i] = (cuckoo_entry){i, UNTOUCHED, UNTOUCHED};
        changes[i] = (cuckoo_change){i, 10 * i, 10 * i + 1};
        parts[i] = (cuckoo_part){i, 1, 0};
        check("a key is bound", i == 8 || cuckoo_insert(&handle, i, 10 * i) == CUCKOO_OK);
    }
    puts("several keys");
    expect("  find_all of none", cuckoo_find_all(&handle, entries, 0), CUCKOO_BAD_COUNT);
    expect("  find_all of nine", cuckoo_find_all(&handle, entries, 9), CUCKOO_BAD_COUNT);
    expect("  set_if_all of none", cuckoo_set_if_all(&handle, changes, 0), CUCKOO_BAD_COUNT);
    expect("  set_if_all of nine", cuckoo_set_if_all(&handle, changes, 9), CUCKOO_BAD_COUNT);
    expect("  move of none", cuckoo_move(&handle, parts, 0), CUCKOO_BAD_COUNT);
    expect("  move of nine", cuckoo_move(&handle, parts, 9), CUCKOO_BAD_COUNT);
    entries[7].key = changes[7].key = parts[7].key = 3;
    expect("  find_all of one twice", cuckoo_find_all(&handle, entries, 8), CUCKOO_TWICE);
    expect("  set_if_all of one twice", cuckoo_set_if_all(&handle, changes, 8), CUCKOO_TWICE);
    expect("  move of one twice", cuckoo_move(&handle, parts, 8), CUCKOO_TWICE);
    for (int i = 0; i < 9; i++)
        check("a refused call leaves its entries",
              entries[i].value == UNTOUCHED && entries[i].bound == UNTOUCHED);
    check("nothing changed", have(&handle, 3, 30, 7, 70));

    entries[7].key = changes[7].key = parts[7].key = 8;
    expect("  find_all where one is unbound", cuckoo_find_all(&handle, entries, 8), CUCKOO_OK);
    for (uint64_t i = 0; i < 7; i++)
        check("it tells each value", entries[i].bound == 1 && entries[i].value == 10 * i);
    check("and which is unbound", entries[7].bound == 0 && entries[7].value == UNTOUCHED);
    expect("  set_if_all", cuckoo_set_if_all(&handle, changes, 8), CUCKOO_ABSENT);
    expect("  move", cuckoo_move(&handle, parts, 8), CUCKOO_ABSENT);
    check("nothing changed", have(&handle, 1, 10, 6, 60));

    expect("  set_if_all of bound keys", cuckoo_set_if_all(&handle, changes, 7), CUCKOO_OK);
    check("all have changed", have(&handle, 0, 1, 6, 61));
    expect("  and once more", cuckoo_set_if_all(&handle, changes, 7), CUCKOO_DIFFERENT);
    expect("  where one is also unbound", cuckoo_set_if_all(&handle, changes, 8), CUCKOO_ABSENT);
    check("nothing changed", have(&handle, 1, 11, 5, 51));
    changes[0].from = 1, changes[1].from = 11;
    expect("  where the last is another", cuckoo_set_if_all(&handle, changes, 3), CUCKOO_DIFFERENT);
    check("nothing changed", have(&handle, 0, 1, 1, 11));

    cuckoo_part some[] = {{4, 41, 0}, {5, 1, 30}, {6, 0, 12}};
    expect("  move among three", cuckoo_move(&handle, some, 3), CUCKOO_OK);
    check("the first has none", have(&handle, 4, 0, 5, 80));
    check("the last has more", have(&handle, 4, 0, 6, 73));
    expect("  where there is not so much", cuckoo_move(&handle, some, 3), CUCKOO_SHORT);
    some[0] = (cuckoo_part){4, 0, 5}, some[2].put = UINT64_MAX - 72;
    expect("  where it is too much", cuckoo_move(&handle, some, 3), CUCKOO_SHORT);
    check("nothing changed", have(&handle, 4, 0, 5, 80) && have(&handle, 4, 0, 6, 73));
    some[2].put--;
    expect("  where it is just enough", cuckoo_move(&handle, some, 3), CUCKOO_OK);
    check("it has the greatest number", have(&handle, 4, 5, 6, UINT64_MAX));
    cuckoo_close(&handle);
}

/* Whether a text of so many bytes has this value. */
static int text_has(cuckoo_text_handle *handle, const char *key, size_t length, uint64_t value) {
    uint64_t place = UNTOUCHED;
    return cuckoo_text_find(handle, key, length, &place) == CUCKOO_OK && place == value;
}

/* Each answer of a rename, and a key that stands twice. */
static void try_rename(void) {
    cuckoo_handle handle = open_one(settings_of(4, 8, 1, 5));
    check("a key is bound", cuckoo_insert(&handle, 1, 10) == CUCKOO_OK);
    check("a key is bound", cuckoo_insert(&handle, 2, 20) == CUCKOO_OK);
    puts("rename");
    expect("  to a key that is bound", cuckoo_rename(&handle, 1, 2), CUCKOO_PRESENT);
    expect("  of a key that is unbound", cuckoo_rename(&handle, 3, 4), CUCKOO_ABSENT);
    expect("  of one that is unbound to one that is not", cuckoo_rename(&handle, 3, 1),
           CUCKOO_ABSENT);
    expect("  of a key to itself", cuckoo_rename(&handle, 1, 1), CUCKOO_TWICE);
    expect("  of an unbound key to itself", cuckoo_rename(&handle, 3, 3), CUCKOO_TWICE);
    check("nothing changed", have(&handle, 1, 10, 2, 20));
    expect("  to a key that is unbound", cuckoo_rename(&handle, 1, 3), CUCKOO_OK);
    check("the value went over", have(&handle, 3, 10, 2, 20));
    expect("  what was renamed is unbound", cuckoo_contains(&handle, 1), CUCKOO_ABSENT);
    expect("  and back", cuckoo_rename(&handle, 3, 1), CUCKOO_OK);
    check("the value is back", have(&handle, 1, 10, 2, 20));
    cuckoo_close(&handle);
}

/* The same on texts: the keys are the first bytes of one text, as many as stand beside them. */
static void try_text_rename(void) {
    const char *key = "key";
    uint64_t count = 0;
    cuckoo_text_handle text = CUCKOO_CLOSED_HANDLE;
    cuckoo_text_handle *handle = &text;
    check("a table is opened", cuckoo_text_open(100, 64, handle, 1) == CUCKOO_OK);
    check("a key is bound", cuckoo_text_insert(handle, key, 3, 30) == CUCKOO_OK);
    check("a key is bound", cuckoo_text_insert(handle, key, 2, 20) == CUCKOO_OK);
    puts("rename of texts");
    expect("  to a key that is bound", cuckoo_text_rename(handle, key, 3, key, 2), CUCKOO_PRESENT);
    expect("  of a key that is unbound", cuckoo_text_rename(handle, key, 1, key, 0), CUCKOO_ABSENT);
    expect("  of a key to itself", cuckoo_text_rename(handle, key, 3, key, 3), CUCKOO_TWICE);
    check("nothing changed", text_has(handle, key, 3, 30) && text_has(handle, key, 2, 20));
    expect("  to a key that is unbound", cuckoo_text_rename(handle, key, 3, key, 0), CUCKOO_OK);
    check("the value went over", text_has(handle, key, 0, 30) && text_has(handle, key, 2, 20));
    check("no other is bound", cuckoo_text_len(handle, &count) == CUCKOO_OK && count == 2);
    cuckoo_text_close(handle);
}

/* Renames each of so many keys, which are bound, to the next one, which has no room, and back where
 * the slot that it left was room. It gives the code of the last refusal. */
static int32_t rename_each(cuckoo_handle *handle, uint64_t count) {
    int32_t refusal = CUCKOO_OK;
    for (uint64_t key = 0; key < count; key++) {
        int32_t code = cuckoo_rename(handle, key, count);
        if (code < 0)
            refusal = code;
        else
            check("a key is renamed, and back",
                  code == CUCKOO_OK && cuckoo_rename(handle, count, key) == CUCKOO_OK);
    }
    return refusal;
}

/* Inserts keys up to one that is refused, and checks that all before are bound, and it isn't. */
static void try_fill(const char *name, cuckoo_settings settings, int32_t wanted) {
    cuckoo_handle handle = open_one(settings);
    uint64_t slots = (uint64_t)4 << settings.max;
    uint64_t place = UNTOUCHED;
    uint64_t count = 0;
    uint64_t value;
    int32_t code;
    while ((code = cuckoo_insert(&handle, count, count + 1)) == CUCKOO_OK && count < slots)
        count++;
    expect(name, code, wanted);
    expect("  assign", cuckoo_assign(&handle, count, 1, &place), wanted);
    expect("  add", cuckoo_add(&handle, count, 1), wanted);
    expect("  rename", rename_each(&handle, count), wanted);
    expect("  find what was refused", cuckoo_find(&handle, count, &place), CUCKOO_ABSENT);
    check("a refused call leaves its place", place == UNTOUCHED);
    for (uint64_t key = 0; key < count; key++)
        check("a key is still bound",
              cuckoo_find(&handle, key, &value) == CUCKOO_OK && value == key + 1);
    check("no other key is bound", cuckoo_len(&handle, &value) == CUCKOO_OK && value == count);
    cuckoo_close(&handle);
}

/* All buckets of a table may be in one stripe, also where they are many. */
static void try_one_stripe(void) {
    enum { POWER = 21, KEYS = 1000 };
    cuckoo_handle handle = open_one(settings_of(4, POWER, 1, 0));
    uint64_t slots = (uint64_t)4 << POWER;
    uint64_t place = 0;
    for (uint64_t key = 0; key < KEYS; key++)
        check("a key is bound", cuckoo_insert(&handle, key, key + 1) == CUCKOO_OK);
    puts("one stripe");
    expect("  reserve", cuckoo_reserve(&handle, slots), CUCKOO_OK);
    check("it has so many slots", cuckoo_capacity(&handle, &place) == CUCKOO_OK && place == slots);
    expect("  reserve as many", cuckoo_reserve(&handle, slots), CUCKOO_ENOUGH);
    expect("  reserve more", cuckoo_reserve(&handle, slots + 1), CUCKOO_OVER_MAX);
    for (uint64_t key = 0; key < KEYS; key++)
        check("a key is still bound",
              cuckoo_find(&handle, key, &place) == CUCKOO_OK && place == key + 1);
    check("no other key is bound", cuckoo_len(&handle, &place) == CUCKOO_OK && place == KEYS);
    cuckoo_close(&handle);
}

/* A table grows by itself as far as it may, while there is memory. */
static void try_many_keys(void) {
    enum { POWER = 21, KEYS = 4500000, STEP = 100 };
    cuckoo_settings settings = settings_of(10, POWER, 1, 5);
    cuckoo_handle handle;
    uint64_t place = 0;
    uint64_t found = 0;
    int32_t code = CUCKOO_OK;
    settings.s = 5;
    handle = open_one(settings);
    for (uint64_t key = 0; key < KEYS && code == CUCKOO_OK; key++)
        code = cuckoo_insert(&handle, key, key + 1);
    expect("many keys", code, CUCKOO_OK);
    check("it has so many slots", cuckoo_capacity(&handle, &place) == CUCKOO_OK &&
                                      place == (uint64_t)4 << POWER);
    check("all are bound", cuckoo_len(&handle, &place) == CUCKOO_OK && place == KEYS);
    for (uint64_t key = 0; key < KEYS; key += STEP)
        found += cuckoo_find(&handle, key, &place) == CUCKOO_OK && place == key + 1;
    check("each hundredth has its value", found == KEYS / STEP);
    cuckoo_close(&handle);
}

/* Where the process may have no more memory. */
static void try_no_memory(void) {
    struct rlimit before;
    struct rlimit less;
    cuckoo_handle one = open_one(settings_of(4, 26, 1, 5));
    cuckoo_handle other = CUCKOO_CLOSED_HANDLE;
    cuckoo_settings large = settings_of(26, 26, 1, 5);
    puts("no memory");
    if (HAS_SANITIZER || getrlimit(RLIMIT_AS, &before) != 0) {
        puts("  not tried");
    } else {
        check("a key is bound", cuckoo_insert(&one, 1, 10) == CUCKOO_OK);
        less = before, less.rlim_cur = (rlim_t)1 << 30;
        check("memory is limited", setrlimit(RLIMIT_AS, &less) == 0);
        expect("  open", cuckoo_open_with(&large, &other, 1), CUCKOO_NO_MEMORY);
        expect("  the place stays closed", cuckoo_contains(&other, 1), CUCKOO_CLOSED);
        expect("  reserve", cuckoo_reserve(&one, (uint64_t)4 << 26), CUCKOO_NO_MEMORY);
        expect("  the key stays bound", cuckoo_contains(&one, 1), CUCKOO_OK);
        check("memory is as before", setrlimit(RLIMIT_AS, &before) == 0);
    }
    cuckoo_close(&one);
}

/* Set when a count and a rename were refused as busy, and when it is time to stop. */
static atomic_int is_over;
static atomic_int was_busy;
static atomic_int was_busy_rename;

static void *make_busy(void *of) {
    cuckoo_handle *handle = of;
    uint64_t count;
    while (!is_over) {
        int32_t code = cuckoo_len(handle, &count);
        int32_t code_of_rename = cuckoo_rename(handle, 1, 2);
        if (code == CUCKOO_BUSY) was_busy = 1;
        if (code_of_rename == CUCKOO_BUSY) was_busy_rename = 1;
        if (was_busy && was_busy_rename) is_over = 1;
        check("a count is answered, or refused as busy",
              code == CUCKOO_OK || code == CUCKOO_BUSY);
        check("so is a rename", code_of_rename == CUCKOO_ABSENT || code_of_rename == CUCKOO_BUSY);
    }
    return NULL;
}

/* Four threads, with one try each, until each call finds a stripe held; half a minute at most. */
static void try_busy(void) {
    enum { THREADS = 4 };
    cuckoo_handle handles[THREADS];
    pthread_t threads[THREADS];
    cuckoo_settings settings = settings_of(10, 10, THREADS, 5);
    settings.s = 10;
    settings.turns = 1;
    for (int i = 0; i < THREADS; i++) handles[i] = (cuckoo_handle)CUCKOO_CLOSED_HANDLE;
    check("a table is opened", cuckoo_open_with(&settings, handles, THREADS) == CUCKOO_OK);
    for (int i = 0; i < THREADS; i++)
        check("a thread begins", pthread_create(&threads[i], NULL, make_busy, &handles[i]) == 0);
    for (int i = 0; i < 3000 && !is_over; i++)
        nanosleep(&(struct timespec){.tv_nsec = 10000000}, NULL);
    is_over = 1;
    for (int i = 0; i < THREADS; i++) pthread_join(threads[i], NULL);
    expect("a stripe that is held", was_busy ? CUCKOO_BUSY : CUCKOO_OK, CUCKOO_BUSY);
    expect("  a rename", was_busy_rename ? CUCKOO_BUSY : CUCKOO_OK, CUCKOO_BUSY);
    for (int i = 0; i < THREADS; i++) cuckoo_close(&handles[i]);
}

int main(void) {
    try_closed_handles();
    try_open_twice();
    try_bad_settings();
    try_long_texts();
    try_answers();
    try_several();
    try_rename();
    try_text_rename();
    try_fill("full", settings_of(1, 1, 1, 5), CUCKOO_FULL);
    try_fill("full after growing", settings_of(1, 6, 1, 5), CUCKOO_FULL);
    try_fill("load too low", settings_of(8, 26, 1, 100), CUCKOO_LOAD_TOO_LOW);
    try_one_stripe();
    try_many_keys();
    try_no_memory();
    try_busy();
    puts(failed ? "failed" : "passed");
    return failed;
}
