/* Pairs that are read in portions: the same ones in the same order as one at a time, from an export, a
 * drain and a locked table. */
#include <cuckoo_map.h>
#include <stdint.h>
#include <stdio.h>
#include <string.h>

enum { KEYS = 250, TEXTS = 129, PLACES = 300 };

#define UNTOUCHED UINT64_C(12345)

static const size_t portions[] = {1, 3, 100, KEYS, PLACES};
enum { PORTIONS = sizeof portions / sizeof *portions };

static int failed;
static cuckoo_handle handle = CUCKOO_CLOSED_HANDLE;
static cuckoo_text_handle text = CUCKOO_CLOSED_HANDLE;
static uint64_t taken;

/* What is read one at a time, and where portions are read to. */
static cuckoo_pair pairs_at[PLACES];
static cuckoo_pair places[PLACES];
static cuckoo_text_pair text_pairs_at[PLACES];
static cuckoo_text_pair text_places[PLACES];

static void check(const char *what, int holds) {
    if (holds) return;
    fprintf(stderr, "portions: wrong: %s\n", what);
    failed = 1;
}

static size_t least(size_t a, size_t b) { return a < b ? a : b; }

static void bind(void) {
    for (uint64_t key = 0; key < KEYS; key++)
        check("a number is bound", cuckoo_insert(&handle, 7 * key, 10 * key) == CUCKOO_OK);
}

/* All pairs at one moment, from where they can be had; all keys are bound again. */
static void export_all(cuckoo_pairs *pairs) {
    check("an export", cuckoo_export(&handle, pairs) == CUCKOO_OK);
}

static void drain_all(cuckoo_pairs *pairs) {
    check("a drain", cuckoo_drain(&handle, pairs) == CUCKOO_OK);
    bind();
}

static void export_locked(cuckoo_pairs *pairs) {
    cuckoo_locked locked = CUCKOO_NOT_LOCKED;
    check("a lock", cuckoo_lock(&handle, &locked) == CUCKOO_OK);
    check("an export of it", cuckoo_locked_export(&locked, pairs) == CUCKOO_OK);
    check("it is unlocked", cuckoo_unlock(&locked, &handle) == CUCKOO_OK);
}

static void read_singly(void) {
    cuckoo_pairs pairs = CUCKOO_NO_PAIRS;
    size_t count = 0;
    export_all(&pairs);
    while (count < PLACES && cuckoo_pairs_next(&pairs, &pairs_at[count].key,
                                               &pairs_at[count].value) == CUCKOO_OK)
        count++;
    check("all numbers are read", count == KEYS);
    cuckoo_pairs_close(&pairs);
}

/* Reads up to `count` pairs, of which those from `at` on are left; no other place is written. */
static void take(cuckoo_pairs *pairs, size_t at, size_t count) {
    size_t wanted = least(count, KEYS - at);
    for (size_t i = 0; i < PLACES; i++) places[i] = (cuckoo_pair){UNTOUCHED, UNTOUCHED};
    taken = UNTOUCHED;
    check("the code", cuckoo_pairs_take(pairs, places, count, &taken) ==
                          (wanted == 0 && count != 0 ? CUCKOO_ABSENT : CUCKOO_OK));
    check("so many are taken", taken == wanted);
    for (size_t i = 0; i < wanted; i++)
        check("a pair", places[i].key == pairs_at[at + i].key &&
                            places[i].value == pairs_at[at + i].value);
    for (size_t i = wanted; i < PLACES; i++)
        check("a place behind them", places[i].key == UNTOUCHED && places[i].value == UNTOUCHED);
}

static void take_all(void (*open)(cuckoo_pairs *), size_t portion) {
    cuckoo_pairs pairs = CUCKOO_NO_PAIRS;
    open(&pairs);
    for (size_t at = 0; at < KEYS; at += least(portion, KEYS - at)) take(&pairs, at, portion);
    take(&pairs, KEYS, portion);
    take(&pairs, KEYS, 0);
    take(&pairs, KEYS, portion);
    cuckoo_pairs_close(&pairs);
}

static void next(cuckoo_pairs *pairs, size_t at) {
    cuckoo_pair one;
    check("a next one", cuckoo_pairs_next(pairs, &one.key, &one.value) == CUCKOO_OK);
    check("it is in its place", one.key == pairs_at[at].key && one.value == pairs_at[at].value);
}

static void take_and_next(void) {
    cuckoo_pairs pairs = CUCKOO_NO_PAIRS;
    export_all(&pairs);
    take(&pairs, 0, 0);
    next(&pairs, 0);
    take(&pairs, 1, 3);
    next(&pairs, 4);
    take(&pairs, 5, 100);
    take(&pairs, 105, 0);
    next(&pairs, 105);
    take(&pairs, 106, PLACES);
    check("there is no next one",
          cuckoo_pairs_next(&pairs, &places[0].key, &places[0].value) == CUCKOO_ABSENT);
    cuckoo_pairs_close(&pairs);
}

/* What isn't open has no pairs, and an empty table's list is open all the same. */
static void take_none(void) {
    cuckoo_pairs pairs = CUCKOO_NO_PAIRS;
    cuckoo_handle empty = CUCKOO_CLOSED_HANDLE;
    places[0] = (cuckoo_pair){UNTOUCHED, UNTOUCHED};
    for (size_t count = 0; count < 2; count++) {
        taken = UNTOUCHED;
        check("closed", cuckoo_pairs_take(&pairs, places, count, &taken) == CUCKOO_ABSENT);
        check("none is taken", taken == 0 && pairs.at == NULL && places[0].key == UNTOUCHED);
    }
    check("open", cuckoo_open(10, 64, &empty, 1) == CUCKOO_OK);
    check("none are copied", cuckoo_export(&empty, &pairs) == CUCKOO_OK);
    take(&pairs, KEYS, 0);
    take(&pairs, KEYS, 5);
    cuckoo_pairs_close(&pairs);
    cuckoo_close(&empty);
}

/* The empty text, and of two bytes all texts of 1 to 64 of the same. */
static size_t text_of(size_t i, uint8_t *bytes) {
    size_t length = i == 0 ? 0 : 1 + (i - 1) % CUCKOO_TEXT_MAX;
    memset(bytes, i <= CUCKOO_TEXT_MAX ? 0 : 255, length);
    return length;
}

static void bind_texts(void) {
    uint8_t bytes[CUCKOO_TEXT_MAX];
    for (size_t i = 0; i < TEXTS; i++) {
        size_t length = text_of(i, bytes);
        check("a text is bound", cuckoo_text_insert(&text, bytes, length, 10 * i) == CUCKOO_OK);
    }
}

static void export_texts(cuckoo_text_pairs *pairs) {
    check("an export of texts", cuckoo_text_export(&text, pairs) == CUCKOO_OK);
}

static void drain_texts(cuckoo_text_pairs *pairs) {
    check("a drain of texts", cuckoo_text_drain(&text, pairs) == CUCKOO_OK);
    bind_texts();
}

static void export_locked_texts(cuckoo_text_pairs *pairs) {
    cuckoo_text_locked locked = CUCKOO_NOT_LOCKED;
    check("a lock of texts", cuckoo_text_lock(&text, &locked) == CUCKOO_OK);
    check("an export of it", cuckoo_text_locked_export(&locked, pairs) == CUCKOO_OK);
    check("it is unlocked", cuckoo_text_unlock(&locked, &text) == CUCKOO_OK);
}

static int32_t next_text(cuckoo_text_pairs *pairs, cuckoo_text_pair *one) {
    size_t length = 0;
    memset(one->key, 0, sizeof one->key);
    int32_t code = cuckoo_text_pairs_next(pairs, one->key, sizeof one->key, &length, &one->value);
    one->length = length;
    return code;
}

static int are_same(const cuckoo_text_pair *a, const cuckoo_text_pair *b) {
    return memcmp(a->key, b->key, sizeof a->key) == 0 && a->length == b->length &&
           a->value == b->value;
}

static void read_texts_singly(void) {
    cuckoo_text_pairs pairs = CUCKOO_NO_PAIRS;
    size_t count = 0;
    export_texts(&pairs);
    while (count < PLACES && next_text(&pairs, &text_pairs_at[count]) == CUCKOO_OK) count++;
    check("all texts are read", count == TEXTS);
    cuckoo_text_pairs_close(&pairs);
}

static void take_texts(cuckoo_text_pairs *pairs, size_t at, size_t count) {
    cuckoo_text_pair untouched = {.length = UNTOUCHED, .value = UNTOUCHED};
    size_t wanted = least(count, TEXTS - at);
    memset(untouched.key, 77, sizeof untouched.key);
    for (size_t i = 0; i < PLACES; i++) text_places[i] = untouched;
    taken = UNTOUCHED;
    check("the code of texts", cuckoo_text_pairs_take(pairs, text_places, count, &taken) ==
                                   (wanted == 0 && count != 0 ? CUCKOO_ABSENT : CUCKOO_OK));
    check("so many texts are taken", taken == wanted);
    for (size_t i = 0; i < wanted; i++)
        check("a pair of a text", are_same(&text_places[i], &text_pairs_at[at + i]));
    for (size_t i = wanted; i < PLACES; i++)
        check("a place behind the texts", are_same(&text_places[i], &untouched));
}

static void take_all_texts(void (*open)(cuckoo_text_pairs *), size_t portion) {
    cuckoo_text_pairs pairs = CUCKOO_NO_PAIRS;
    cuckoo_text_pair one;
    size_t at = 1;
    open(&pairs);
    check("a next text", next_text(&pairs, &one) == CUCKOO_OK);
    check("it is the first", are_same(&one, &text_pairs_at[0]));
    for (; at < TEXTS; at += least(portion, TEXTS - at)) take_texts(&pairs, at, portion);
    take_texts(&pairs, TEXTS, portion);
    take_texts(&pairs, TEXTS, 0);
    check("there is no next text", next_text(&pairs, &one) == CUCKOO_ABSENT);
    cuckoo_text_pairs_close(&pairs);
    taken = UNTOUCHED;
    check("closed", cuckoo_text_pairs_take(&pairs, text_places, 1, &taken) == CUCKOO_ABSENT);
    check("no text is taken", taken == 0 && pairs.at == NULL);
}

int main(void) {
    check("open", cuckoo_open(KEYS, 64, &handle, 1) == CUCKOO_OK);
    check("open texts", cuckoo_text_open(TEXTS, 64, &text, 1) == CUCKOO_OK);
    bind();
    bind_texts();
    read_singly();
    read_texts_singly();
    for (int i = 0; i < PORTIONS; i++) {
        take_all(export_all, portions[i]);
        take_all(drain_all, portions[i]);
        take_all(export_locked, portions[i]);
        take_all_texts(export_texts, portions[i]);
        take_all_texts(drain_texts, portions[i]);
        take_all_texts(export_locked_texts, portions[i]);
    }
    take_and_next();
    take_none();
    cuckoo_close(&handle);
    cuckoo_text_close(&text);
    return failed;
}
