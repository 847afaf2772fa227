/* Texts that are bound, bound again, renamed and unbound: of each key the table frees the copy that
 * it made, at once or when it ends. The address sanitizer and valgrind tell what it keeps. */
#include <cuckoo_map.h>
#include <stdint.h>
#include <stdio.h>

static int failed;

static void expect(const char *what, int32_t code, int32_t wanted) {
    if (code == wanted) return;
    fprintf(stderr, "texts: %s: %d, where %d is wanted\n", what, code, wanted);
    failed = 1;
}

/* A key and its length. */
#define ONE "the first of the keys", 21
#define TWO "the second of the keys", 22
#define THREE "the third of the keys", 21

/* Keys that are given for a bound one aren't kept. */
static void bind(cuckoo_text_handle *text) {
    uint64_t old;
    expect("insert", cuckoo_text_insert(text, ONE, 1), CUCKOO_OK);
    expect("insert again", cuckoo_text_insert(text, ONE, 2), CUCKOO_PRESENT);
    expect("assign", cuckoo_text_assign(text, ONE, 3, &old), CUCKOO_PRESENT);
    expect("add", cuckoo_text_add(text, ONE, 4), CUCKOO_PRESENT);
    expect("update", cuckoo_text_update(text, ONE, 5, &old), CUCKOO_OK);
    expect("swap_if", cuckoo_text_swap_if(text, ONE, 5, 6, &old), CUCKOO_OK);
    expect("assign another", cuckoo_text_assign(text, TWO, 7, &old), CUCKOO_OK);
}

/* Keys that are unbound are freed, and so are the names of a rename. */
static void unbind(cuckoo_text_handle *text) {
    uint64_t old;
    expect("rename to a bound one", cuckoo_text_rename(text, ONE, TWO), CUCKOO_PRESENT);
    expect("rename", cuckoo_text_rename(text, ONE, THREE), CUCKOO_OK);
    expect("rename an unbound one", cuckoo_text_rename(text, ONE, THREE), CUCKOO_ABSENT);
    expect("erase", cuckoo_text_erase(text, TWO, &old), CUCKOO_OK);
    expect("erase_if another", cuckoo_text_erase_if(text, THREE, 1), CUCKOO_DIFFERENT);
    expect("erase_if", cuckoo_text_erase_if(text, THREE, 6), CUCKOO_OK);
    expect("clear nothing", cuckoo_text_clear(text), CUCKOO_OK);
}

/* An export copies the keys, and a drain hands out those of the table. */
static void list(cuckoo_text_handle *text) {
    cuckoo_text_pairs pairs = CUCKOO_NO_PAIRS;
    uint64_t value;
    size_t length;
    char key[64];
    expect("export", cuckoo_text_export(text, &pairs), CUCKOO_OK);
    expect("next", cuckoo_text_pairs_next(&pairs, key, sizeof key, &length, &value), CUCKOO_OK);
    cuckoo_text_pairs_close(&pairs);
    expect("drain", cuckoo_text_drain(text, &pairs), CUCKOO_OK);
    expect("next", cuckoo_text_pairs_next(&pairs, key, sizeof key, &length, &value), CUCKOO_OK);
    cuckoo_text_pairs_close(&pairs);
}

int main(void) {
    cuckoo_text_handle text = CUCKOO_CLOSED_HANDLE;
    expect("open", cuckoo_text_open(100, 64, &text, 1), CUCKOO_OK);
    bind(&text);
    unbind(&text);
    bind(&text);
    list(&text);
    bind(&text);
    expect("clear", cuckoo_text_clear(&text), CUCKOO_OK);
    bind(&text);
    cuckoo_text_close(&text);
    return failed;
}
