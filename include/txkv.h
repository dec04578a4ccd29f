/* txkv.h: a transactional store in memory, for programs in C and for whatever calls C.

   A store lives in this process. It is opened, asked and closed, and plays lines: each is one step
   of a script, a JSON array, and has one reply line (docs/SCRIPT.md has the steps, the replies and
   the limits). A line that is a fault is told and changes nothing, and the next one may be asked.
   Transactions are sessions of the script, and any number of them may be under way side by side.

   docs/LINKING.md says how the library is built and linked.

   What is proved, and under what. Proved is what lies behind the four functions, under these duties
   of the caller, which nothing checks: `store` is what txkv_lines_open gave and txkv_lines_close has
   not taken; one call at a time has it, ordered by a lock; a pointer and its length are of memory
   that lives through the call, never null (also of no bytes), and `reply` overlaps nothing; malloc,
   realloc and free are of one allocator and align to 16; no call comes from a signal handler or a
   forked child; there is enough stack. This header is not proved, nor is what calls it. Nothing
   compares these declarations with the source that they declare (crates/tx_line_c/src/face.rt). */
#ifndef TXKV_H
#define TXKV_H

#include <stdbool.h>
#include <stddef.h>
#include <stdint.h>

#ifdef __cplusplus
extern "C" {
#endif

/* A store: a pointer that its holder does not look behind. */
typedef struct txkv_lines txkv_lines;

/* How an open went. */
enum txkv_opened {
    TXKV_REFUSED = 0, /* memory was refused: there is no store */
    TXKV_OPEN = 1,
    TXKV_FAULT = 2 /* the first line is a fault: there is no store */
};

/* Opens a store by its first line, which may say the keys between its regions, as
   ["regions",["g","p"]] does, and else is any step of a new store, as ["tick",1]. The line is
   played, and its reply may be asked for. *store is written where the store is open. */
uint32_t txkv_lines_open(const uint8_t *first, size_t length, txkv_lines **store);

/* Plays a line, with no newline: true. False where memory was refused before it was played; all is
   then as it was, and it may be played again. */
bool txkv_lines_play(txkv_lines *store, const uint8_t *line, size_t length);

/* How many bytes the reply to the line that was played last has, its newline with them. They are
   written to the front of `reply` where they fit, and else nothing is: it may be asked for again, in
   more room. 0 where memory was refused, and then too. */
uint64_t txkv_lines_reply(txkv_lines *store, uint8_t *reply, size_t room);

/* Closes a store: what it held is gone. */
void txkv_lines_close(txkv_lines *store);

/* Plays a line and asks for its reply: as txkv_lines_reply, and 0 also where memory was refused
   before the line was played. */
static inline uint64_t txkv_lines_ask(txkv_lines *store, const char *line, size_t length,
                                      char *reply, size_t room) {
    if (!txkv_lines_play(store, (const uint8_t *)line, length)) return 0;
    return txkv_lines_reply(store, (uint8_t *)reply, room);
}

#ifdef __cplusplus
}
#endif
#endif
