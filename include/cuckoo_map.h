/* A concurrent hash map that cannot lose a key.
 *
 * The functions are a static library, libcuckoo_map.a, which is written in Rattle: what they do is
 * proved of the code that runs. The headers, and what a program does with them, are not.
 *
 * A table is called through handles, one for each thread that makes calls at a time. `cuckoo_open`
 * makes a table with its handles. The keys of a `cuckoo_handle` are numbers, and those of a
 * `cuckoo_text_handle` texts of at most 64 bytes. The values are numbers; a program may keep a
 * pointer in one, of which the table knows nothing.
 *
 *     cuckoo_handle handle = CUCKOO_CLOSED_HANDLE;
 *     if (cuckoo_open(1000, 64, &handle, 1) != CUCKOO_OK) return 1;
 *     int32_t code;
 *     while ((code = cuckoo_add(&handle, 5, 50)) == CUCKOO_BUSY) sched_yield();
 *     uint64_t value;
 *     while ((code = cuckoo_find(&handle, 5, &value)) == CUCKOO_BUSY) sched_yield();
 *     if (code == CUCKOO_OK) printf("%llu\n", (unsigned long long)value);
 *     cuckoo_close(&handle);
 *
 * Where several threads make calls, any call may answer CUCKOO_BUSY: it has done nothing, and the
 * program has to make it again, or the call is lost.
 *
 * Each answered call of all handles takes effect once, at one moment, in one order in which a plain
 * map gives the same answers. A refused call changes no binding. A call through a handle that is
 * closed, or was never opened and began as CUCKOO_CLOSED_HANDLE, changes nothing. It is refused as
 * CUCKOO_CLOSED, if it is not for its keys: none, too many, too long, or texts with no memory for a
 * copy.
 * What a thread wrote before it bound a key, a thread that finds that binding sees: calls lock by
 * sequentially consistent atomics.
 *
 * What is undefined: a handle that began as anything else; a copy of a handle, where both are used;
 * a handle in two calls at a time; a handle that goes to another thread by nothing that orders the
 * two (a lock, the start or end of a thread, a sequentially consistent atomic); a call from a signal
 * handler, or in the child of a `fork` of a process with threads; pointers that are null, or lead to
 * fewer bytes than the parameters say. So it is of pairs and of locked tables.
 *
 * The library calls malloc, aligned_alloc, realloc and free, which have to align blocks as C says, and
 * needs a processor of x86-64-v2. Memory is requested where a table is opened, locked or is to grow,
 * where a text is to be bound or renamed, and for the pairs of a table; no other call requests any. A
 * call that finds none loses no key, and leaves its handle as it was. The library never yields: a
 * caller that was refused as CUCKOO_BUSY lets other threads run, and calls again (`cuckoo_map.hpp` does
 * that).
 */
#ifndef CUCKOO_MAP_H
#define CUCKOO_MAP_H

#include <stddef.h>
#include <stdint.h>

#define CUCKOO_MAP_VERSION "0.1.0"

/* A text that is a key has so many bytes at most. */
#define CUCKOO_TEXT_MAX 64

#ifdef __cplusplus
extern "C" {
#endif

/* A handle of a table, or a closed one. It is 8 bytes, and its owner is the program. Each call writes
 * it, so handles of different threads are kept 64 bytes apart: in one line of the cache, calls of
 * four threads took twice as long. `cuckoo_open` wants places side by side; from there each handle
 * is moved: copied to a place of its own, while the one that it was copied from isn't used again. */
typedef struct cuckoo_handle {
    void *at;
} cuckoo_handle;

typedef struct cuckoo_text_handle {
    void *at;
} cuckoo_text_handle;

/* The pairs of a table at one moment, or none. */
typedef struct cuckoo_pairs {
    void *at;
} cuckoo_pairs;

typedef struct cuckoo_text_pairs {
    void *at;
} cuckoo_text_pairs;

/* A locked table, or none. It has the handle that locked it. */
typedef struct cuckoo_locked {
    void *at;
} cuckoo_locked;

typedef struct cuckoo_text_locked {
    void *at;
} cuckoo_text_locked;

/* What each of them begins as; an array of handles, as {CUCKOO_CLOSED_HANDLE}. */
#define CUCKOO_CLOSED_HANDLE { NULL }
#define CUCKOO_NO_PAIRS { NULL }
#define CUCKOO_NOT_LOCKED { NULL }

/* What a call answers: at least 0, or below 0 where it was refused. */
enum cuckoo_code {
    CUCKOO_OK = 0,
    /* The key is unbound; of pairs: there are no more. */
    CUCKOO_ABSENT = 1,
    /* The key was bound before. */
    CUCKOO_PRESENT = 2,
    /* The key is bound to another value than the one that was asked for. */
    CUCKOO_DIFFERENT = 3,
    /* The table had so many slots before. */
    CUCKOO_ENOUGH = 4,
    /* A value is less than what was to be taken from it, or would be more than UINT64_MAX. */
    CUCKOO_SHORT = 5,
    /* A stripe of the table was held by other threads in all tries. Let them run, and try again. */
    CUCKOO_BUSY = -1,
    /* There is no memory. */
    CUCKOO_NO_MEMORY = -2,
    /* There is no room for the key, and the table may not grow beyond its greatest size. */
    CUCKOO_FULL = -3,
    /* There is no room for the key, and too few slots are taken for the table to grow. */
    CUCKOO_LOAD_TOO_LOW = -4,
    /* The table may not have so many slots. */
    CUCKOO_OVER_MAX = -5,
    /* A setting is not in its range. */
    CUCKOO_BAD_SETTINGS = -6,
    /* A text has more than CUCKOO_TEXT_MAX bytes. */
    CUCKOO_TOO_LONG = -7,
    /* The handle is closed. */
    CUCKOO_CLOSED = -8,
    /* What was to be opened is open. */
    CUCKOO_IS_OPEN = -9,
    /* One of the keys stands twice. */
    CUCKOO_TWICE = -10,
    /* The keys are none, or more than 8. */
    CUCKOO_BAD_COUNT = -11
};

/* What a table is opened with. */
typedef struct cuckoo_settings {
    uint32_t s;        /* 2^s stripes: 0 to 10, and at most `power`. 10, but for small tables. */
    uint32_t power;    /* it opens with 2^power buckets of four slots: 1 to `max` */
    uint32_t max;      /* it never has more than 2^max buckets: 1 to 26 */
    uint32_t callers;  /* as many as handles: 1 to 1024 */
    uint32_t turns;    /* tries to take a stripe before a call is refused as busy: 1 at least */
    uint32_t rounds;   /* tries to displace entries without the whole table: 0 to 64 */
    uint32_t min_load; /* an insertion grows it only where so many per cent of it are taken: 0 to 100 */
} cuckoo_settings;

/* Settings for about so many keys: the table opens with room for them, and grows where more come.
 * `rounds` is 4 and `min_load` 5. `callers` and `turns` are as they are given. */
void cuckoo_settings_for(uint64_t keys, uint32_t callers, uint32_t turns, cuckoo_settings *settings);

/* ---- keys that are numbers ---- */

/* A new table for about so many keys, with a handle in each of the `count` places, which are closed
 * before. A handle takes 56 bytes for each of up to 1,024 stripes. Where there are more threads than
 * processors, few turns are best, as 64. For more than 2^28 keys it is a table of the greatest size.
 * CUCKOO_OK; CUCKOO_NO_MEMORY; CUCKOO_BAD_SETTINGS (count is not 1 to 1024, or turns is 0);
 * CUCKOO_IS_OPEN. Refused, it leaves all places as they were. */
int32_t cuckoo_open(uint64_t keys, uint32_t turns, cuckoo_handle *handles, size_t count);

/* The same with every setting. CUCKOO_BAD_SETTINGS also where `callers` isn't `count`. */
int32_t cuckoo_open_with(const cuckoo_settings *settings, cuckoo_handle *handles, size_t count);

/* Closes a handle. The table ends with its last one. A closed one stays closed. */
void cuckoo_close(cuckoo_handle *handle);

/* The value of the key. CUCKOO_OK: it goes to `value`; CUCKOO_ABSENT; CUCKOO_BUSY; CUCKOO_CLOSED. Here
 * and below, what a pointer leads to stays as it is but for the codes of which it is said what goes
 * there. */
int32_t cuckoo_find(cuckoo_handle *handle, uint64_t key, uint64_t *value);

/* Whether the key is bound. CUCKOO_OK; CUCKOO_ABSENT; CUCKOO_BUSY; CUCKOO_CLOSED. */
int32_t cuckoo_contains(cuckoo_handle *handle, uint64_t key);

/* Binds an unbound key. CUCKOO_OK; CUCKOO_PRESENT: it keeps its value; CUCKOO_BUSY;
 * CUCKOO_NO_MEMORY; CUCKOO_FULL; CUCKOO_LOAD_TOO_LOW; CUCKOO_CLOSED. */
int32_t cuckoo_insert(cuckoo_handle *handle, uint64_t key, uint64_t value);

/* Binds the key. CUCKOO_OK: it was unbound; CUCKOO_PRESENT: the value that it had goes to `old`;
 * refused as cuckoo_insert is. */
int32_t cuckoo_assign(cuckoo_handle *handle, uint64_t key, uint64_t value, uint64_t *old);

/* Adds to the value of the key, but not beyond UINT64_MAX, and binds an unbound key to `more`.
 * CUCKOO_OK: it was unbound; CUCKOO_PRESENT: added; refused as cuckoo_insert is. */
int32_t cuckoo_add(cuckoo_handle *handle, uint64_t key, uint64_t more);

/* Binds a bound key. CUCKOO_OK: the value that it had goes to `old`; CUCKOO_ABSENT; CUCKOO_BUSY;
 * CUCKOO_CLOSED. */
int32_t cuckoo_update(cuckoo_handle *handle, uint64_t key, uint64_t value, uint64_t *old);

/* Compare and set: binds a key that is bound to `from` to `to`. CUCKOO_OK: `from`, which it had, goes
 * to `seen`; CUCKOO_DIFFERENT: the value that it has goes to `seen`; CUCKOO_ABSENT; CUCKOO_BUSY;
 * CUCKOO_CLOSED. */
int32_t cuckoo_swap_if(cuckoo_handle *handle, uint64_t key, uint64_t from, uint64_t to,
                       uint64_t *seen);

/* Unbinds the key. CUCKOO_OK: the value that it had goes to `value`; CUCKOO_ABSENT; CUCKOO_BUSY;
 * CUCKOO_CLOSED. */
int32_t cuckoo_erase(cuckoo_handle *handle, uint64_t key, uint64_t *value);

/* Unbinds a key that is bound to this value. CUCKOO_OK; CUCKOO_DIFFERENT; CUCKOO_ABSENT;
 * CUCKOO_BUSY; CUCKOO_CLOSED. */
int32_t cuckoo_erase_if(cuckoo_handle *handle, uint64_t key, uint64_t value);

/* A key, and what was found of it. */
typedef struct cuckoo_entry {
    uint64_t key;
    uint64_t value; /* where it is bound */
    uint64_t bound; /* 1, or 0 where it is unbound */
} cuckoo_entry;

/* A key, the value that is expected of it, and its new one. */
typedef struct cuckoo_change {
    uint64_t key;
    uint64_t from;
    uint64_t to;
} cuckoo_change;

/* A key, what is taken from its value, and what is then added to it. */
typedef struct cuckoo_part {
    uint64_t key;
    uint64_t take;
    uint64_t put;
} cuckoo_part;

/* What follows is done to 1 to 8 different keys at one moment, and is refused as CUCKOO_BAD_COUNT,
 * CUCKOO_TWICE, CUCKOO_BUSY or CUCKOO_CLOSED. */

/* The values of the keys. CUCKOO_OK: they go to their entries, as does whether the keys are bound; the
 * `value` of an unbound key stays as it is. */
int32_t cuckoo_find_all(cuckoo_handle *handle, cuckoo_entry *entries, size_t count);

/* Compare and set: where each key is bound to its `from`, binds each to its `to`. CUCKOO_OK;
 * CUCKOO_ABSENT: one is unbound, whatever the others have; CUCKOO_DIFFERENT: all are bound, and one
 * to another value. But for the first, none has changed. */
int32_t cuckoo_set_if_all(cuckoo_handle *handle, const cuckoo_change *changes, size_t count);

/* Takes from the values and adds to them: where each key is bound, and each can be taken from and
 * added to so. CUCKOO_OK; CUCKOO_ABSENT: one is unbound, whatever the others have; CUCKOO_SHORT: all
 * are bound, and one can't be. But for the first, none has changed. */
int32_t cuckoo_move(cuckoo_handle *handle, const cuckoo_part *parts, size_t count);

/* Gives the value of `from` to another key, `to`, and unbinds `from`, in one step of the map: no
 * other call finds both bound, or none. CUCKOO_OK; CUCKOO_ABSENT: `from` is unbound;
 * CUCKOO_PRESENT: both are bound. But for the first, nothing has changed. Refused as cuckoo_insert
 * of `to` is, and as CUCKOO_TWICE where the two keys are one. */
int32_t cuckoo_rename(cuckoo_handle *handle, uint64_t from, uint64_t to);

/* How many keys are bound, counted under all locks. CUCKOO_OK: it goes to `count`; CUCKOO_BUSY;
 * CUCKOO_CLOSED. */
int32_t cuckoo_len(cuckoo_handle *handle, uint64_t *count);

/* How many slots the table has. CUCKOO_OK: it goes to `slots`; CUCKOO_BUSY; CUCKOO_CLOSED. */
int32_t cuckoo_capacity(cuckoo_handle *handle, uint64_t *slots);

/* Makes the table grow until it has so many slots. CUCKOO_OK; CUCKOO_ENOUGH; CUCKOO_OVER_MAX;
 * CUCKOO_NO_MEMORY: it may have doubled before that; CUCKOO_BUSY; CUCKOO_CLOSED. */
int32_t cuckoo_reserve(cuckoo_handle *handle, uint64_t slots);

/* Unbinds all keys, at one moment. CUCKOO_OK; CUCKOO_BUSY; CUCKOO_CLOSED. */
int32_t cuckoo_clear(cuckoo_handle *handle);

/* All pairs at one moment, in rising order of the keys: a copy, which other threads don't change.
 * CUCKOO_OK: it goes to `pairs`; CUCKOO_BUSY; CUCKOO_CLOSED; CUCKOO_IS_OPEN: `pairs` is open;
 * CUCKOO_NO_MEMORY. */
int32_t cuckoo_export(cuckoo_handle *handle, cuckoo_pairs *pairs);

/* The same, and unbinds all keys at that moment. Where it is refused, they are bound still. */
int32_t cuckoo_drain(cuckoo_handle *handle, cuckoo_pairs *pairs);

/* The next pair. CUCKOO_OK: it goes to `key` and `value`; CUCKOO_ABSENT: there are no more, or `pairs`
 * isn't open. */
int32_t cuckoo_pairs_next(cuckoo_pairs *pairs, uint64_t *key, uint64_t *value);

/* A pair. */
typedef struct cuckoo_pair {
    uint64_t key;
    uint64_t value;
} cuckoo_pair;

/* The next pairs, up to `count` of them. CUCKOO_OK: they go to the first places of `into`, in their
 * order, and their number to `taken`; the other places stay as they are. CUCKOO_ABSENT: there are no
 * more, or `pairs` isn't open; `taken` is 0, and `into` as it was. Where `count` is 0 and `pairs` is
 * open, it is CUCKOO_OK. */
int32_t cuckoo_pairs_take(cuckoo_pairs *pairs, cuckoo_pair *into, size_t count, uint64_t *taken);

/* Frees the pairs. */
void cuckoo_pairs_close(cuckoo_pairs *pairs);

/* Locks the table: all that is done to `locked` until it is unlocked is one call of the handle's, and
 * takes effect at one moment, however long it takes. The handle is in `locked` meanwhile: `handle` is
 * closed, and calls of it answer CUCKOO_CLOSED, those of this thread too. Calls of all other handles
 * answer CUCKOO_BUSY. `locked`, which begins as CUCKOO_NOT_LOCKED, belongs to the program, and is used
 * and moved as a handle is. One that is forgotten or lost holds the table for good, as a mutex that is
 * never unlocked does.
 * CUCKOO_OK; CUCKOO_BUSY: another handle is in a call, or has locked the table; CUCKOO_NO_MEMORY;
 * CUCKOO_CLOSED; CUCKOO_IS_OPEN: `locked` has a table. But for the first, nothing has changed. */
int32_t cuckoo_lock(cuckoo_handle *handle, cuckoo_locked *locked);

/* Unlocks the table: all that was done to it takes effect. The handle goes to `handle`, which is
 * closed: the place that it was in, or another one. It needs no memory. CUCKOO_OK; CUCKOO_CLOSED:
 * nothing is locked; CUCKOO_IS_OPEN: `handle` is open, and the table stays locked. */
int32_t cuckoo_unlock(cuckoo_locked *locked, cuckoo_handle *handle);

/* Unlocks the table as cuckoo_unlock does, and closes the handle. Where nothing is locked, it does
 * nothing. */
void cuckoo_locked_close(cuckoo_locked *locked);

/* Calls on a locked table. They find no stripe held, so none answers CUCKOO_BUSY. Each answers
 * CUCKOO_CLOSED where nothing is locked. */

/* The value of the key. CUCKOO_OK: it goes to `value`; CUCKOO_ABSENT; CUCKOO_CLOSED. */
int32_t cuckoo_locked_find(cuckoo_locked *locked, uint64_t key, uint64_t *value);

/* Binds an unbound key. CUCKOO_OK; CUCKOO_PRESENT: it keeps its value; CUCKOO_NO_MEMORY;
 * CUCKOO_FULL; CUCKOO_LOAD_TOO_LOW; CUCKOO_CLOSED. Refused, it leaves the table locked, and all that
 * was done to it. */
int32_t cuckoo_locked_insert(cuckoo_locked *locked, uint64_t key, uint64_t value);

/* Binds the key. CUCKOO_OK: it was unbound; CUCKOO_PRESENT: the value that it had goes to `old`;
 * refused as cuckoo_locked_insert is. */
int32_t cuckoo_locked_assign(cuckoo_locked *locked, uint64_t key, uint64_t value, uint64_t *old);

/* Unbinds the key. CUCKOO_OK: the value that it had goes to `value`; CUCKOO_ABSENT; CUCKOO_CLOSED. */
int32_t cuckoo_locked_erase(cuckoo_locked *locked, uint64_t key, uint64_t *value);

/* How many keys are bound. CUCKOO_OK: it goes to `count`; CUCKOO_CLOSED. */
int32_t cuckoo_locked_len(cuckoo_locked *locked, uint64_t *count);

/* Unbinds all keys. CUCKOO_OK; CUCKOO_CLOSED. */
int32_t cuckoo_locked_clear(cuckoo_locked *locked);

/* All pairs, in rising order of the keys: a copy, which later calls don't change. The table stays
 * locked. CUCKOO_OK: it goes to `pairs`; CUCKOO_IS_OPEN: `pairs` is open; CUCKOO_NO_MEMORY;
 * CUCKOO_CLOSED. */
int32_t cuckoo_locked_export(cuckoo_locked *locked, cuckoo_pairs *pairs);

/* ---- keys that are texts of at most 64 bytes ----
 * The same calls, but those on 1 to 8 keys, also refused as CUCKOO_TOO_LONG, before anything else
 * is looked at, and where a key is to be bound as CUCKOO_NO_MEMORY, since the key is copied; a rename
 * copies both. Keys may be any bytes; where a length is 0, the pointer beside it isn't null all the
 * same. Texts are ordered by their bytes. */

int32_t cuckoo_text_open(uint64_t keys, uint32_t turns, cuckoo_text_handle *handles, size_t count);
int32_t cuckoo_text_open_with(const cuckoo_settings *settings, cuckoo_text_handle *handles,
                              size_t count);
void cuckoo_text_close(cuckoo_text_handle *handle);
int32_t cuckoo_text_find(cuckoo_text_handle *handle, const void *key, size_t length,
                         uint64_t *value);
int32_t cuckoo_text_contains(cuckoo_text_handle *handle, const void *key, size_t length);
int32_t cuckoo_text_insert(cuckoo_text_handle *handle, const void *key, size_t length,
                           uint64_t value);
int32_t cuckoo_text_assign(cuckoo_text_handle *handle, const void *key, size_t length,
                           uint64_t value, uint64_t *old);
int32_t cuckoo_text_add(cuckoo_text_handle *handle, const void *key, size_t length,
                        uint64_t more);
int32_t cuckoo_text_update(cuckoo_text_handle *handle, const void *key, size_t length,
                           uint64_t value, uint64_t *old);
int32_t cuckoo_text_swap_if(cuckoo_text_handle *handle, const void *key, size_t length,
                            uint64_t from, uint64_t to, uint64_t *seen);
int32_t cuckoo_text_erase(cuckoo_text_handle *handle, const void *key, size_t length,
                          uint64_t *value);
int32_t cuckoo_text_erase_if(cuckoo_text_handle *handle, const void *key, size_t length,
                             uint64_t value);
int32_t cuckoo_text_rename(cuckoo_text_handle *handle, const void *from, size_t from_length,
                           const void *to, size_t to_length);
int32_t cuckoo_text_len(cuckoo_text_handle *handle, uint64_t *count);
int32_t cuckoo_text_capacity(cuckoo_text_handle *handle, uint64_t *slots);
int32_t cuckoo_text_reserve(cuckoo_text_handle *handle, uint64_t slots);
int32_t cuckoo_text_clear(cuckoo_text_handle *handle);
int32_t cuckoo_text_export(cuckoo_text_handle *handle, cuckoo_text_pairs *pairs);
int32_t cuckoo_text_drain(cuckoo_text_handle *handle, cuckoo_text_pairs *pairs);

/* The next pair. CUCKOO_OK: the bytes of its key go to `key`, their number to `length`, and the value
 * to `value`; CUCKOO_ABSENT; CUCKOO_TOO_LONG: `room` is less than CUCKOO_TEXT_MAX, and nothing
 * changed. */
int32_t cuckoo_text_pairs_next(cuckoo_text_pairs *pairs, void *key, size_t room, size_t *length,
                               uint64_t *value);

/* A pair. */
typedef struct cuckoo_text_pair {
    uint8_t key[CUCKOO_TEXT_MAX]; /* the bytes of its key, and zeros */
    uint64_t length;              /* so many bytes are of its key */
    uint64_t value;
} cuckoo_text_pair;

/* As cuckoo_pairs_take. */
int32_t cuckoo_text_pairs_take(cuckoo_text_pairs *pairs, cuckoo_text_pair *into, size_t count,
                               uint64_t *taken);
void cuckoo_text_pairs_close(cuckoo_text_pairs *pairs);

int32_t cuckoo_text_lock(cuckoo_text_handle *handle, cuckoo_text_locked *locked);
int32_t cuckoo_text_unlock(cuckoo_text_locked *locked, cuckoo_text_handle *handle);
void cuckoo_text_locked_close(cuckoo_text_locked *locked);
int32_t cuckoo_text_locked_find(cuckoo_text_locked *locked, const void *key, size_t length,
                                uint64_t *value);
int32_t cuckoo_text_locked_insert(cuckoo_text_locked *locked, const void *key, size_t length,
                                  uint64_t value);
int32_t cuckoo_text_locked_assign(cuckoo_text_locked *locked, const void *key, size_t length,
                                  uint64_t value, uint64_t *old);
int32_t cuckoo_text_locked_erase(cuckoo_text_locked *locked, const void *key, size_t length,
                                 uint64_t *value);
int32_t cuckoo_text_locked_len(cuckoo_text_locked *locked, uint64_t *count);
int32_t cuckoo_text_locked_clear(cuckoo_text_locked *locked);
int32_t cuckoo_text_locked_export(cuckoo_text_locked *locked, cuckoo_text_pairs *pairs);

#ifdef __cplusplus
}
#endif

#endif
