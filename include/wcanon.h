/* The one canonical form of a WebAssembly module (Core Specification 1.0).
 *
 * Every call reads and writes memory of the caller alone, keeps nothing, and may run in several threads at once. It takes
 * memory by malloc and gives all of it back before it returns. A pointer must not be null, also where its length is 0.
 * What a call writes, an answer's room and *needed, must overlap nothing else that it is handed; inputs may overlap.
 *
 * An input is a binary where its first byte is 00, and else a text, also where it has no byte. Every call takes both. */
#ifndef WCANON_H
#define WCANON_H

#include <stddef.h>
#include <stdint.h>

#ifdef __cplusplus
extern "C" {
#endif

enum {
    WCANON_DONE = 0,      /* done: answered, accepted, or the same module */
    WCANON_REFUSED = 1,   /* the input is refused */
    WCANON_NO_MEMORY = 2, /* a request for memory was refused */
    WCANON_SHORT = 3,     /* there is an answer, and less room than it needs */
    WCANON_DIFFERENT = 4, /* the inputs denote different modules */
    WCANON_A_REFUSED = 5, /* the first input is refused */
    WCANON_B_REFUSED = 6  /* the first input is accepted, and the second one is refused */
};

/* Writes the canonical bytes of the module that the input denotes to the front of out, and their number to *needed.
 * WCANON_DONE, WCANON_REFUSED, WCANON_NO_MEMORY or WCANON_SHORT; with any but WCANON_DONE nothing is written to out, and
 * with WCANON_REFUSED and WCANON_NO_MEMORY *needed is 0. With WCANON_SHORT *needed is the room that the answer needs.
 * Room of a binary's length is always enough for its answer; a text's may be too little. */
uint32_t wcanon_normalise(const uint8_t *input, size_t length, uint8_t *out, size_t room, size_t *needed);

/* Writes the text of the module that the input denotes, without a zero byte behind it, to the front of out, and its
 * length to *needed. What is told, written and not written is as with wcanon_normalise; no room that is known before is
 * always enough, so call with room 0 to learn how much is. Inputs that denote the same module have the same text. */
uint32_t wcanon_to_text(const uint8_t *input, size_t length, uint8_t *out, size_t room, size_t *needed);

/* Tells whether the input is accepted: WCANON_DONE, WCANON_REFUSED or WCANON_NO_MEMORY. The text of a refusal, without a
 * line end or a zero byte, goes to the front of text, and its length to *needed, which is 0 where the input isn't
 * refused. Where the text needs more room than there is, nothing of it is written. */
uint32_t wcanon_check(const uint8_t *input, size_t length, uint8_t *text, size_t room, size_t *needed);

/* Tells whether two inputs denote the same module: WCANON_DONE where they do, or WCANON_DIFFERENT, WCANON_A_REFUSED,
 * WCANON_B_REFUSED or WCANON_NO_MEMORY. */
uint32_t wcanon_compare(const uint8_t *a, size_t a_length, const uint8_t *b, size_t b_length);

/* Writes the version to the front of text, without a zero byte, and its length to *needed. Where that is more than there
 * is room for, nothing is written. */
void wcanon_version(uint8_t *text, size_t room, size_t *needed);

#ifdef __cplusplus
}
#endif

#endif
