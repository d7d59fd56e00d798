/* buffers.h - random numbers, lent buffers between canaries, and the report of a mismatch.
 *
 * Every buffer that a call gets is lent twice, to the library and to the reference, from separate memory. Canaries
 * stand on both sides of each copy. They differ between the two copies, so a read outside of a buffer shows as
 * well, where the answer depends on it.
 */
#ifndef BUFFERS_H
#define BUFFERS_H

#include <stdbool.h>
#include <stddef.h>
#include <stdint.h>

/* ---- Random numbers: everything in a case comes from its seed and its number ---- */

void start_case(uint64_t seed, uint64_t number);
uint64_t case_number(void);
uint64_t draw(void);
/* A number below limit. */
size_t draw_below(size_t limit);
/* True once in n draws. */
bool one_in(size_t n);
void draw_bytes(uint8_t *bytes, size_t len);
/* One of the numbers in a list. */
size_t draw_from(const size_t *list, size_t count);
#define DRAW_FROM(list) draw_from((list), sizeof(list) / sizeof((list)[0]))

/* ---- Mismatches ---- */

/* Print seed, case, call and what differs, and end the program with 1. */
void mismatch(const char *call, const char *what, uint64_t library, uint64_t reference);
/* The two agree, but not on what the case relies on. */
void unexpected(const char *what, uint64_t given, uint64_t wanted);
void compare_number(const char *call, const char *what, uint64_t library, uint64_t reference);

/* ---- Lent buffers ---- */

enum { LENT_MAX = 36864 };

struct lent {
    const char *name;
    bool written; /* lent to be written */
    size_t size;
    uint8_t *library; /* NULL where (NULL, 0) is lent */
    uint8_t *reference;
    uint8_t *before;
};

/* Forget the buffers of the call before. */
void lend_none(void);
struct lent *lend_input(const char *name, const uint8_t *bytes, size_t size);
struct lent *lend_output(const char *name, const uint8_t *bytes, size_t size);
/* After the call: canaries and inputs are as they were, and the two copies of each output agree. */
void compare_lent(const char *call);
/* Bytes from `from` on are as they were. */
void check_unwritten(const char *call, const struct lent *l, size_t from);
/* Copy the agreed bytes of an output back. */
void take_back(const struct lent *l, uint8_t *bytes);

#endif
