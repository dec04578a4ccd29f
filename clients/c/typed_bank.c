/* Threads move money between accounts of one store, each by a client of its own; the sum stays, also
   for whoever reads all on the way: typed_bank [THREADS [TRANSFERS]]. It tells how many transfers a
   second that made, and ends with 1 where the sum is another or something is said that it does not
   expect. */
#define _POSIX_C_SOURCE 200809L
#include "txkv_store.h"
#include <pthread.h>
#include <stdio.h>
#include <stdlib.h>
#include <time.h>

enum { ACCOUNTS = 100, BALANCE = 1000, THREADS = 64 };

static txkv_store *store;
static pthread_mutex_t turn = PTHREAD_MUTEX_INITIALIZER;
static long transfers = 5000, tried_again;

static void stop(const char *what, int code) {
    fprintf(stderr, "typed_bank: %s: %s\n", what, txkv_text(code));
    exit(1);
}

/* Calls of a client, under the lock of the store. */
#define TURN(call) (pthread_mutex_lock(&turn), code = (call), pthread_mutex_unlock(&turn), code)

static void account(uint8_t key[2], int number) {
    key[0] = 'a';
    key[1] = (uint8_t)number;
}

static int32_t balance(txkv_client *client, int number) {
    uint8_t key[2];
    int32_t found = 0;
    size_t length = 0;
    int code;
    account(key, number);
    if (TURN(txkv_get(client, key, sizeof key, &found, sizeof found, &length)) != TXKV_DONE ||
        length != sizeof found)
        stop("a balance", code);
    return found;
}

static void set(txkv_client *client, int number, int32_t to) {
    uint8_t key[2];
    int code;
    account(key, number);
    if (TURN(txkv_put(client, key, sizeof key, &to, sizeof to)) != TXKV_DONE) stop("a put", code);
}

static void begin(txkv_client *client) {
    int code;
    if (TURN(txkv_begin(client)) != TXKV_DONE) stop("a begin", code);
}

/* Whether it is committed; it is not where another came first. */
static int commit(txkv_client *client) {
    uint64_t at;
    int code;
    TURN(txkv_commit(client, &at));
    if (code != TXKV_DONE && code != TXKV_READ_ONLY && code != TXKV_CONFLICT) stop("a commit", code);
    return code != TXKV_CONFLICT;
}

static int transfer(txkv_client *client, int from, int to, int32_t amount) {
    begin(client);
    int32_t x = balance(client, from), y = balance(client, to);
    set(client, from, x - amount);
    set(client, to, y + amount);
    return commit(client);
}

/* The sum of all balances, row by row. */
static long sum(txkv_client *client) {
    uint8_t from[3] = {'a'}, row[64];
    long found = 0;
    size_t from_length = 1, length = 0;
    int code, rows = 0;
    begin(client);
    while (TURN(txkv_next(client, from, from_length, "b", 1, row, sizeof row, &length)) == TXKV_DONE) {
        int32_t value;
        memcpy(&value, row + 4, sizeof value);
        found += value;
        memcpy(from, row + 2, 2);
        from_length = 3;
        rows++;
    }
    if (code != TXKV_ABSENT || rows != ACCOUNTS || !commit(client)) stop("the rows", code);
    return found;
}

static void *work(void *own) {
    txkv_client *client = malloc(sizeof *client);
    if (!client) stop("a client", TXKV_MEMORY);
    txkv_client_of(client, store, (uint16_t)(long)own);
    unsigned chance = 12345u + 977u * (unsigned)(long)own;
    for (long done = 0; done < transfers; done++) {
        chance = chance * 1664525u + 1013904223u;
        int from = (int)(chance >> 8) % ACCOUNTS, to = (from + 1 + (int)(chance >> 20) % (ACCOUNTS - 1)) % ACCOUNTS;
        while (!transfer(client, from, to, (int32_t)(chance >> 4) % 10)) __sync_fetch_and_add(&tried_again, 1);
        if (done % 500 == 499 && sum(client) != ACCOUNTS * BALANCE) stop("another sum", TXKV_REFUSED);
    }
    free(client);
    return NULL;
}

/* What a transaction promises, call by call. */
static void promises(txkv_client *first, txkv_client *second) {
    const char *key = "\0k\377";
    uint8_t value[8];
    uint64_t at = 0, before;
    size_t length = 0;
    int code;
    begin(first), begin(second);
    if ((code = txkv_begin(first)) != TXKV_BUSY) stop("a second begin", code);
    if ((code = txkv_put(first, key, 3, "1", 1)) != TXKV_DONE) stop("a put", code);
    if (txkv_get(first, key, 3, value, 8, &length) != TXKV_DONE || value[0] != '1') stop("its own", TXKV_REFUSED);
    if ((code = txkv_get(second, key, 3, value, 8, &length)) != TXKV_ABSENT) stop("another's", code);
    if ((code = txkv_commit(first, &before)) != TXKV_DONE || before == 0) stop("a commit", code);
    if ((code = txkv_get(second, key, 3, value, 8, &length)) != TXKV_ABSENT) stop("its snapshot", code);
    if ((code = txkv_insert(second, key, 3, "2", 1)) != TXKV_DONE) stop("an insert", code);
    if ((code = txkv_commit(second, &at)) != TXKV_CONFLICT) stop("a conflict", code);
    if ((code = txkv_commit(second, &at)) != TXKV_NO_TRANSACTION) stop("one that ended", code);
    begin(second);
    txkv_insert(second, key, 3, "3", 1);
    if ((code = txkv_commit(second, &at)) != TXKV_EXISTS) stop("an insert", code);
    begin(first), begin(second);
    txkv_put(first, key, 3, "4", 1);
    txkv_lock(second, key, 3), txkv_put(second, "l", 1, "5", 1);
    if ((code = txkv_commit(first, &at)) != TXKV_DONE || at <= before) stop("a put", code);
    if ((code = txkv_commit(second, &at)) != TXKV_CONFLICT) stop("a lock", code);
    begin(first);
    if ((code = txkv_get(first, "l", 1, value, 8, &length)) != TXKV_ABSENT) stop("half a commit", code);
    if ((code = txkv_get(first, "", 0, value, 8, &length)) != TXKV_KEY_LENGTH) stop("no key", code);
    txkv_delete(first, key, 3);
    if ((code = txkv_get(first, key, 3, value, 8, &length)) != TXKV_ABSENT) stop("a delete", code);
    if ((code = txkv_abort(first)) != TXKV_DONE) stop("a leave", code);
    begin(first);
    if (txkv_get(first, key, 3, value, 8, &length) != TXKV_DONE || value[0] != '4') stop("what was left", TXKV_REFUSED);
    txkv_delete(first, key, 3);
    if ((code = txkv_commit(first, &at)) != TXKV_DONE) stop("a delete", code);
    begin(first);
    if ((code = txkv_commit(first, &at)) != TXKV_READ_ONLY) stop("nothing", code);
}

int main(int words, char **word) {
    long threads = words > 1 ? atol(word[1]) : 4;
    if (threads > THREADS) threads = THREADS;
    if (words > 2) transfers = atol(word[2]);
    if (!txkv_open(THREADS + 1, &store)) stop("no store", TXKV_MEMORY);
    static txkv_client all, other;
    txkv_client_of(&all, store, THREADS);
    txkv_client_of(&other, store, 0);
    promises(&all, &other);
    begin(&all);
    for (int n = 0; n < ACCOUNTS; n++) set(&all, n, BALANCE);
    if (!commit(&all)) stop("fill", TXKV_CONFLICT);
    struct timespec from, to;
    clock_gettime(CLOCK_MONOTONIC, &from);
    pthread_t thread[THREADS];
    for (long n = 0; n < threads; n++) pthread_create(&thread[n], NULL, work, (void *)n);
    for (long n = 0; n < threads; n++) pthread_join(thread[n], NULL);
    clock_gettime(CLOCK_MONOTONIC, &to);
    double seconds = (double)(to.tv_sec - from.tv_sec) + 1e-9 * (double)(to.tv_nsec - from.tv_nsec);
    double cpu = (double)clock() / CLOCKS_PER_SEC;
    long found = sum(&all);
    printf("C, typed, %ld threads: the sum is %ld, %ld tried again\n", threads, found, tried_again);
    fprintf(stderr, "%.0f transfers a second; %.0f of processor time\n", (double)(threads * transfers) / seconds,
            (double)(threads * transfers) / cpu);
    txkv_close(store);
    return found == ACCOUNTS * BALANCE ? 0 : 1;
}
