/* Threads move money between accounts of one store; the sum stays, also for whoever reads all on the
   way: bank [THREADS [TRANSFERS]]. It tells how many lines and transfers a second that made, and
   ends with 1 where the sum is another or a reply is none that it knows. */
#define _POSIX_C_SOURCE 200809L
#include "txkv.h"
#include <pthread.h>
#include <stdarg.h>
#include <stdio.h>
#include <stdlib.h>
#include <string.h>
#include <time.h>

enum { ACCOUNTS = 100, BALANCE = 1000, ROOM = 1 << 16 };

static txkv_lines *store;
static pthread_mutex_t turn = PTHREAD_MUTEX_INITIALIZER;
static long transfers = 5000, lines, tried_again;

static void stop(const char *what, const char *reply) {
    fprintf(stderr, "bank: %s: %s\n", what, reply);
    exit(1);
}

/* Asks a line: what its reply tells behind the number of the line. */
static char *ask(char *reply, const char *words, ...) {
    char line[256];
    va_list of;
    va_start(of, words);
    int length = vsnprintf(line, sizeof line, words, of);
    va_end(of);
    pthread_mutex_lock(&turn);
    uint64_t told = txkv_lines_ask(store, line, (size_t)length, reply, ROOM - 1);
    lines++;
    pthread_mutex_unlock(&turn);
    if (told == 0 || told >= ROOM) stop(line, told ? "a long reply" : "out of memory");
    reply[told] = 0;
    if (strstr(reply, "\"E16\"")) stop(line, reply);
    return strchr(reply, ',') + 1;
}

static bool tells(const char *told, const char *word) {
    size_t length = strlen(word);
    return told[0] == '"' && !strncmp(told + 1, word, length) && told[length + 1] == '"';
}

/* The balance of an account, where no lock stands in the way. */
static bool balance(const char *name, int account, long *found) {
    char reply[ROOM], *told = ask(reply, "[\"get\",\"%s\",\"a%02d\"]", name, account);
    if (tells(told, "E1")) return false;
    if (!tells(told, "value")) stop("a balance", reply);
    *found = atol(told + strlen("\"value\",\""));
    return true;
}

/* Sends what is due of a kind until nothing is: whether that went well. */
static bool each(const char *word, const char *name) {
    char reply[ROOM], *told;
    do {
        told = ask(reply, "[\"%s\",\"%s\"]", word, name);
        if (told[1] == 'E') return false;
    } while (!tells(told, "done"));
    return true;
}

/* Ends a transaction: whether it has committed. */
static bool finish(const char *name) {
    char reply[ROOM], *told = ask(reply, "[\"finish\",\"%s\"]", name);
    if (!tells(told, "outcome")) stop("an outcome", reply);
    return tells(told + strlen("\"outcome\","), "committed");
}

/* Commits what a transaction has entered: whether it has. */
static bool commit(const char *name) {
    char reply[ROOM];
    ask(reply, "[\"declare\",\"%s\",\"async\",1000]", name);
    if (each("prewrite", name) && each("commit", name)) return finish(name);
    each("abort", name);
    return finish(name);
}

static bool transfer(const char *name, int from, int to, long amount) {
    char reply[ROOM];
    long x, y;
    ask(reply, "[\"begin\",\"%s\"]", name);
    if (!balance(name, from, &x) || !balance(name, to, &y)) {
        ask(reply, "[\"stop\",\"%s\"]", name);
        return false;
    }
    ask(reply, "[\"put\",\"%s\",\"a%02d\",\"%ld\"]", name, from, x - amount);
    ask(reply, "[\"put\",\"%s\",\"a%02d\",\"%ld\"]", name, to, y + amount);
    return commit(name);
}

/* The sum of all balances, where no lock stands in the way. */
static bool sum(const char *name, long *found) {
    char reply[ROOM];
    ask(reply, "[\"begin\",\"%s\"]", name);
    char *told = ask(reply, "[\"scan\",\"%s\",\"a\",\"b\",1024]", name), other[ROOM];
    ask(other, "[\"stop\",\"%s\"]", name);
    if (tells(told, "E1")) return false;
    *found = 0;
    for (char *row = told; (row = strstr(row, "[\"a")); row++) *found += atol(row + strlen("[\"a00\",\""));
    return true;
}

static void *work(void *own) {
    char name[16];
    snprintf(name, sizeof name, "t%ld", (long)own);
    unsigned chance = 12345u + 977u * (unsigned)(long)own;
    for (long done = 0; done < transfers; done++) {
        chance = chance * 1664525u + 1013904223u;
        int from = (int)(chance >> 8) % ACCOUNTS, to = (from + 1 + (int)(chance >> 20) % (ACCOUNTS - 1)) % ACCOUNTS;
        while (!transfer(name, from, to, (long)(chance >> 4) % 10)) __sync_fetch_and_add(&tried_again, 1);
        long found = ACCOUNTS * BALANCE;
        if (done % 500 == 499 && sum(name, &found) && found != ACCOUNTS * BALANCE) stop(name, "another sum");
    }
    return NULL;
}

static void fill(void) {
    char reply[ROOM];
    ask(reply, "[\"begin\",\"fill\"]");
    for (int n = 0; n < ACCOUNTS; n++) ask(reply, "[\"put\",\"fill\",\"a%02d\",\"%d\"]", n, BALANCE);
    if (!commit("fill")) stop("fill", "not committed");
}

int main(int words, char **word) {
    long threads = words > 1 ? atol(word[1]) : 4, found = 0;
    if (words > 2) transfers = atol(word[2]);
    const char *first = "[\"regions\",[\"a50\"]]";
    if (txkv_lines_open((const uint8_t *)first, strlen(first), &store) != TXKV_OPEN) stop(first, "no store");
    fill();
    lines = 0;
    struct timespec from, to;
    clock_gettime(CLOCK_MONOTONIC, &from);
    pthread_t thread[64];
    for (long n = 0; n < threads && n < 64; n++) pthread_create(&thread[n], NULL, work, (void *)n);
    for (long n = 0; n < threads && n < 64; n++) pthread_join(thread[n], NULL);
    clock_gettime(CLOCK_MONOTONIC, &to);
    double seconds = (double)(to.tv_sec - from.tv_sec) + 1e-9 * (double)(to.tv_nsec - from.tv_nsec);
    double cpu = (double)clock() / CLOCKS_PER_SEC;
    if (!sum("all", &found)) stop("all", "a lock is left");
    printf("C, %ld threads: the sum is %ld, %ld tried again\n", threads, found, tried_again);
    fprintf(stderr, "%.0f lines and %.0f transfers a second; %.0f and %.0f of processor time\n", (double)lines / seconds,
            (double)(threads * transfers) / seconds, (double)lines / cpu, (double)(threads * transfers) / cpu);
    txkv_lines_close(store);
    return found == ACCOUNTS * BALANCE ? 0 : 1;
}
