/* The host calls of the proved checker. Link target/staticlib/liblpac_host.a, which `tools/libraries.sh lpac_host` builds. */
#ifndef LPAC_H
#define LPAC_H

#include <stddef.h>
#include <stdint.h>

#ifdef __cplusplus
extern "C" {
#endif

/* Checks the text of `bytes` bytes at `text`, and gives verdict + 32 * line.
   In the language of the proofs the argument is one byte slice, which crosses as a pointer and a length.
   `text` points to that many readable bytes and is not NULL, not even where `bytes` is 0.
   Nothing is written there and nothing is kept. The room is the call's own, some 150 KB of stack, and any number
   of threads may call at once. A text above 65,536 bytes is LPAC_LONGTEXT and is not read. Variables are 0 to 319, and 1,333 terms
   can be stored at once. */
uint64_t lpac_verdict(const uint8_t *text, size_t bytes);

/* Checks constraints, target and proof as LPAC is published, modulo 2^k, and gives verdict + 32 * line.
   The line is the refused statement's place over the three texts, from 1 upward. All that is said of `text` holds of each of
   the three, which may overlap; the stack is some 180 KB. Together above 65,536 bytes they are LPAC_LONGTEXT and not read; k
   outside 1 to 64 is LPAC_NUMBER at line 0. */
uint64_t lpac_published_verdict(uint64_t k, const uint8_t *constraints, size_t constraints_bytes, const uint8_t *target,
                                size_t target_bytes, const uint8_t *proof, size_t proof_bytes);

/* LPAC_SHORT is never given here: the calls' own room is enough. LPAC_ORDER is given for lines alone, LPAC_NAMES for published
   texts alone. */
enum lpac_number {
    LPAC_ACCEPTED = 0,
    LPAC_SHORT = 1,
    LPAC_LONGTEXT = 2,
    LPAC_LONGLINE = 3,
    LPAC_FORM = 4,
    LPAC_NUMBER = 5,
    LPAC_TERMS = 6,
    LPAC_ORDER = 7,
    LPAC_TAKEN = 8,
    LPAC_MISSING = 9,
    LPAC_SEEN = 10,
    LPAC_PRODUCTS = 11,
    LPAC_MISMATCH = 12,
    LPAC_NOTBIT = 13,
    LPAC_FULL = 14,
    LPAC_NOGOAL = 15,
    LPAC_NOTREACHED = 16,
    LPAC_NAMES = 17
};

static inline enum lpac_number lpac_number_of(uint64_t answer) { return (enum lpac_number)(answer % 32); }

/* The refused line or statement from 1 upward; for LPAC_NOGOAL and LPAC_NOTREACHED how many there are, the constraints alone where
   the target is empty; 0 for LPAC_ACCEPTED, LPAC_LONGTEXT and a k out of range. */
static inline uint64_t lpac_line_of(uint64_t answer) { return answer / 32; }

#ifdef __cplusplus
}
#endif

#endif
