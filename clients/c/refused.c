/* Each growth that a store asks for is refused in turn: refused. Where a line was not played, or its
   reply not made, the same is asked again; a reply has the number of its line; afterwards the store
   works, and a store that is closed has given all memory back. Link with
   -Wl,--wrap=malloc,--wrap=realloc,--wrap=free. */
#include "txkv.h"
#include <stdio.h>
#include <stdlib.h>
#include <string.h>

void *__real_malloc(size_t size);
void *__real_realloc(void *at, size_t size);
void __real_free(void *at);

static long asked, held, refuses = -1;
static bool counts;

static bool is_refused(void) { return counts && asked++ == refuses; }

void *__wrap_malloc(size_t size) {
    void *at = is_refused() ? NULL : __real_malloc(size);
    if (counts && at) held++;
    return at;
}

void *__wrap_realloc(void *at, size_t size) {
    return is_refused() ? NULL : __real_realloc(at, size);
}

void __wrap_free(void *at) {
    if (counts && at) held--;
    __real_free(at);
}

static const char *const LINES[] = {
    "[\"begin\",\"A\"]", "[\"put\",\"A\",\"a\",\"x\"]",
    "[\"put\",\"A\",\"z\",\"a value in a text that is long enough to have a block of its own\"]",
    "[\"declare\",\"A\",\"async\",10]", "[\"prewrite\",\"A\"]", "[\"prewrite\",\"A\"]", "[\"prewrite\",\"A\"]",
    "[\"commit\",\"A\"]", "[\"commit\",\"A\"]", "[\"finish\",\"A\"]", "[\"begin\",\"B\"]", "no step",
    "[\"get\",\"B\",\"a\"]", "[\"scan\",\"B\",\"a\",\"zz\",100]", "[\"insert\",\"B\",\"m\",\"y\"]",
    "[\"declare\",\"B\",\"two-phase\",10]", "[\"prewrite\",\"B\"]", "[\"draw\",\"B\"]", "[\"commit\",\"B\",\"lose-reply\"]",
    "[\"abort\",\"B\"]", "[\"finish\",\"B\"]", "[\"tick\",3]", "[\"gc\",9]", "[\"versions\",\"z\"]", "[\"read\",\"z\",12]"};

/* Plays a line, once more where memory was refused: whether its reply has this number. */
static bool ask(txkv_lines *store, const char *line, int number, char *reply, size_t room) {
    bool played = txkv_lines_play(store, (const uint8_t *)line, strlen(line));
    if (!played && !txkv_lines_play(store, (const uint8_t *)line, strlen(line))) return false;
    uint64_t told = txkv_lines_reply(store, (uint8_t *)reply, room - 1);
    if (told == 0) told = txkv_lines_reply(store, (uint8_t *)reply, room - 1);
    if (told == 0 || told >= room) return false;
    reply[told] = 0;
    return atoi(reply + 1) == number && reply[told - 1] == '\n';
}

/* A play of all lines, and of a transaction behind them: what is wrong, or NULL. */
static const char *plays(void) {
    char reply[1024];
    const char *first = "[\"regions\",[\"m\"]]", *wrong = NULL;
    txkv_lines *store = NULL;
    uint32_t how = txkv_lines_open((const uint8_t *)first, strlen(first), &store);
    if (how != TXKV_OPEN) return store ? "an address with no store" : how == TXKV_REFUSED ? NULL : "a fault";
    int number = 1;
    for (size_t n = 0; n < sizeof LINES / sizeof *LINES && !wrong; n++)
        if (!ask(store, LINES[n], ++number, reply, sizeof reply)) wrong = LINES[n];
    const char *const after[] = {"[\"begin\",\"C\"]", "[\"put\",\"C\",\"c\",\"1\"]", "[\"declare\",\"C\",\"async\",10]",
                                 "[\"prewrite\",\"C\"]", "[\"commit\",\"C\"]", "[\"finish\",\"C\"]"};
    refuses = -1;
    for (size_t n = 0; n < sizeof after / sizeof *after && !wrong; n++)
        if (!ask(store, after[n], ++number, reply, sizeof reply)) wrong = after[n];
    if (!wrong && !strstr(reply, "\"outcome\",\"committed\"")) wrong = "the last transaction is not committed";
    txkv_lines_close(store);
    return wrong;
}

int main(void) {
    counts = true;
    const char *wrong = plays();
    long all = asked;
    for (long n = 0; n < all && !wrong && held == 0; n++) {
        asked = 0;
        refuses = n;
        wrong = plays();
    }
    counts = false;
    if (wrong || held) {
        fprintf(stderr, "refused: growth %ld: %s, %ld blocks held\n", refuses, wrong ? wrong : "well", held);
        return 1;
    }
    printf("C, %ld growths refused in turn: each line has its reply, and the store goes on\n", all);
    return 0;
}
