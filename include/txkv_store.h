/* txkv_store.h: a transactional store of keys and values in memory, for programs in C and for
   whatever calls C. Bytes go in, bytes come out.

   A store lives in this process, and has clients, numbered from 0 on. A client has one transaction
   at a time, which may be open over any number of calls; those of other clients may be open beside
   it. A transaction reads as the store was when it began, and what it entered itself; what it enters
   nobody else sees before it commits, and then all of it stands at once, or nothing does. Keys are 1
   to 512 bytes, compared as bytes; values 0 to 65,536. A transaction enters at most 1,024 keys.

   docs/LINKING.md says how the library is built and linked.

   What is proved, and under what. Proved is what lies behind the four functions, under these duties
   of the caller, which nothing checks: `store` is what txkv_store_open gave and txkv_store_close has
   not taken; one call at a time has it, ordered by a lock, and no other call comes between a request
   and the answer to it; a pointer and its length are of memory that lives through the call, never
   null (also of no bytes), and `out` overlaps nothing; malloc, realloc and free are of one allocator
   and align to 16; no call comes from a signal handler or a forked child; there is enough stack.
   This header is not proved, nor is what calls it. Nothing compares these declarations with the
   source that they declare (crates/tx_embed_c/src/face.rt). */
#ifndef TXKV_STORE_H
#define TXKV_STORE_H

#include <stddef.h>
#include <stdint.h>
#include <string.h>

#ifdef __cplusplus
extern "C" {
#endif

/* A store: a pointer that its holder does not look behind. */
typedef struct txkv_store txkv_store;

/* What is said of a request. */
enum txkv_code {
    TXKV_DONE = 0,
    TXKV_ABSENT = 1,         /* the key has no value; there is no row */
    TXKV_READ_ONLY = 2,      /* the transaction has ended, and nothing was to be written */
    TXKV_UNKNOWN = 3,        /* it has ended, and what becomes of it is not known */
    TXKV_BUSY = 4,           /* the client's transaction is open already */
    TXKV_NO_TRANSACTION = 5, /* none of the client is open */
    TXKV_MISUSED = 6,        /* no such client, or no such request */
    TXKV_WAITS = 10,         /* a lock stands in the way: ask again */
    TXKV_CONFLICT = 11,      /* another transaction committed the key after this one began */
    TXKV_ROLLED_BACK = 12,
    TXKV_EXISTS = 13, /* the key is to be inserted, and has a value */
    TXKV_BELOW_SAFE_POINT = 14,
    TXKV_LOST = 15,
    TXKV_MEMORY = 20,
    TXKV_KEY_LENGTH = 21,
    TXKV_VALUE_LENGTH = 22,
    TXKV_TOO_MANY_KEYS = 23,
    TXKV_SPENT = 24, /* the client has drawn all its timestamps, 2^32 */
    TXKV_REFUSED = 25
};

enum { TXKV_MAX_KEY = 512, TXKV_MAX_VALUE = 65536, TXKV_MAX_CLIENTS = 1022 };

/* ---- The four functions of the library. */

/* Opens a store for as many clients as the two bytes of `options` say, the lesser first: 1, and
   *store is written. 0 where memory was refused, 2 where that is no such number. */
uint32_t txkv_store_open(const uint8_t *options, size_t length, txkv_store **store);

/* Does what a request asks: the code of what is said of it. A request is a byte that says what is
   asked, two of the client's number, two of the key's length, each the lesser first, the key, and
   the value. */
uint32_t txkv_store_call(txkv_store *store, const uint8_t *request, size_t length);

/* How many bytes tell what was said last. They are written to the front of `out` where they fit, and
   else nothing is: it may be asked for again, in more room. UINT64_MAX where memory was refused, and
   then too. */
uint64_t txkv_store_answer(txkv_store *store, uint8_t *out, size_t room);

/* Closes a store: what it held is gone. */
void txkv_store_close(txkv_store *store);

/* ---- Calls by name, over these. */

/* A client of a store, with the room for its requests. Its calls, as all of one store, come one
   after another: by one thread, or under a lock. */
typedef struct txkv_client {
    txkv_store *store;
    uint16_t number;
    uint8_t request[5 + TXKV_MAX_KEY + TXKV_MAX_VALUE];
} txkv_client;

/* A store for so many clients: whether it was opened. */
static inline int txkv_open(uint16_t clients, txkv_store **store) {
    const uint8_t options[2] = {(uint8_t)clients, (uint8_t)(clients >> 8)};
    return txkv_store_open(options, sizeof options, store) == 1;
}

static inline void txkv_close(txkv_store *store) { txkv_store_close(store); }

/* The client of this number. */
static inline void txkv_client_of(txkv_client *client, txkv_store *store, uint16_t number) {
    client->store = store;
    client->number = number;
}

/* Asks: what is said. */
static inline int txkv_ask(txkv_client *client, uint8_t op, const void *key, size_t key_length,
                           const void *value, size_t value_length) {
    uint8_t *at = client->request;
    if (key_length > TXKV_MAX_KEY) return TXKV_KEY_LENGTH;
    if (value_length > TXKV_MAX_VALUE) return TXKV_VALUE_LENGTH;
    at[0] = op;
    at[1] = (uint8_t)client->number;
    at[2] = (uint8_t)(client->number >> 8);
    at[3] = (uint8_t)key_length;
    at[4] = (uint8_t)(key_length >> 8);
    if (key_length) memcpy(at + 5, key, key_length);
    if (value_length) memcpy(at + 5 + key_length, value, value_length);
    return (int)txkv_store_call(client->store, at, 5 + key_length + value_length);
}

/* The bytes that tell what was said last: *length is how many they are, also where they do not fit
   into `room`, and then nothing is written. */
static inline int txkv_answer(txkv_client *client, void *out, size_t room, size_t *length) {
    uint64_t told = txkv_store_answer(client->store, (uint8_t *)out, room);
    if (told == UINT64_MAX) return TXKV_MEMORY;
    *length = (size_t)told;
    return TXKV_DONE;
}

/* Begins a transaction of the client. */
static inline int txkv_begin(txkv_client *client) { return txkv_ask(client, 1, NULL, 0, NULL, 0); }

/* The value of a key: as it was when the transaction began, or as the transaction entered it. */
static inline int txkv_get(txkv_client *client, const void *key, size_t key_length, void *value,
                           size_t room, size_t *length) {
    int code = txkv_ask(client, 2, key, key_length, NULL, 0);
    return code == TXKV_DONE ? txkv_answer(client, value, room, length) : code;
}

/* Enters a put, an insert (which commits only where the key has no value), a delete, or a lock (the
   key is not to change before the commit). */
static inline int txkv_put(txkv_client *client, const void *key, size_t key_length,
                           const void *value, size_t value_length) {
    return txkv_ask(client, 3, key, key_length, value, value_length);
}
static inline int txkv_insert(txkv_client *client, const void *key, size_t key_length,
                              const void *value, size_t value_length) {
    return txkv_ask(client, 4, key, key_length, value, value_length);
}
static inline int txkv_delete(txkv_client *client, const void *key, size_t key_length) {
    return txkv_ask(client, 5, key, key_length, NULL, 0);
}
static inline int txkv_lock(txkv_client *client, const void *key, size_t key_length) {
    return txkv_ask(client, 6, key, key_length, NULL, 0);
}

/* The first row from a key up to but not including another, as the store was when the transaction
   began; what it entered is not looked at. `row` gets two bytes of the key's length, the lesser
   first, the key, and the value; *length is how many bytes that are. The next row is the first from
   that key on, with a byte 0 behind it. */
static inline int txkv_next(txkv_client *client, const void *from, size_t from_length,
                            const void *to, size_t to_length, void *row, size_t room,
                            size_t *length) {
    int code = txkv_ask(client, 7, from, from_length, to, to_length);
    return code == TXKV_DONE ? txkv_answer(client, row, room, length) : code;
}

/* Commits what was entered: TXKV_DONE with the timestamp, TXKV_READ_ONLY, TXKV_UNKNOWN, or why
   nothing is written. The transaction has ended in each case. */
static inline int txkv_commit(txkv_client *client, uint64_t *at) {
    uint8_t bytes[8];
    size_t length = 0;
    int code = txkv_ask(client, 8, NULL, 0, NULL, 0);
    if (code != TXKV_DONE) return code;
    *at = 0;
    if (txkv_answer(client, bytes, sizeof bytes, &length) != TXKV_DONE) return TXKV_DONE;
    for (int n = 7; n >= 0; n--) *at = *at << 8 | bytes[n];
    return TXKV_DONE;
}

/* Leaves the transaction: nothing of it is written. */
static inline int txkv_abort(txkv_client *client) { return txkv_ask(client, 9, NULL, 0, NULL, 0); }

/* A code in words. */
static inline const char *txkv_text(int code) {
    switch (code) {
    case TXKV_DONE: return "done";
    case TXKV_ABSENT: return "the key has no value";
    case TXKV_READ_ONLY: return "nothing was to be written";
    case TXKV_UNKNOWN: return "what becomes of the transaction is not known";
    case TXKV_BUSY: return "a transaction of the client is open";
    case TXKV_NO_TRANSACTION: return "no transaction of the client is open";
    case TXKV_WAITS: return "a lock stands in the way";
    case TXKV_CONFLICT: return "another transaction committed the key";
    case TXKV_ROLLED_BACK: return "the transaction was rolled back";
    case TXKV_EXISTS: return "the key is to be inserted, and has a value";
    case TXKV_BELOW_SAFE_POINT: return "the transaction began below the safe point";
    case TXKV_MEMORY: return "out of memory";
    case TXKV_KEY_LENGTH: return "a key has 1 to 512 bytes";
    case TXKV_VALUE_LENGTH: return "a value has at most 65536 bytes";
    case TXKV_TOO_MANY_KEYS: return "a transaction enters at most 1024 keys";
    case TXKV_SPENT: return "the client has drawn all its timestamps";
    default: return "refused";
    }
}

#ifdef __cplusplus
}
#endif
#endif
