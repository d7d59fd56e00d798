/* both.h - each call of the interface, made on the library and on the reference, and compared.
 *
 * The functions take and give single values: what the two have agreed on. Every answer, number and byte is
 * compared before a function returns; the first difference ends the program.
 */
#ifndef BOTH_H
#define BOTH_H

#include "buffers.h"

/* A session's bytes with room around them: size bytes are lent, len is the session_len that is passed. */
struct saved {
    uint8_t bytes[256];
    size_t size;
    size_t len;
};

/* A buffer to be written: size bytes are lent, len is the length that the last call gave. */
struct room {
    uint8_t bytes[LENT_MAX];
    size_t size;
    size_t len;
};

/* Bytes to be read. */
struct span {
    const uint8_t *bytes;
    size_t len;
};

struct header {
    uint8_t ins, p1, p2;
};

/* Lend size bytes, filled at random. */
void make_room(struct room *r, size_t size);
struct span room_span(const struct room *r);

uint32_t both_open(bool card, uint32_t suite, const struct span keys[3], struct saved *s);
uint32_t both_close(struct saved *s);
uint32_t both_wrap_command(struct saved *s, struct header h, bool le, struct span data, struct room *field);
uint32_t both_unwrap_command(struct saved *s, struct header h, struct span field, struct room *data, bool *le);
uint32_t both_wrap_response(struct saved *s, uint16_t sw, struct span data, struct room *field);
uint32_t both_unwrap_response(struct saved *s, uint16_t sw, struct span field, struct room *data,
                              uint16_t *authentic_sw);
uint32_t both_fragment_command(struct header h, struct span field, size_t size, size_t number, struct room *apdu);
uint32_t both_reassemble_command(uint64_t *chain, struct span apdu, struct room *field, uint16_t *sw,
                                 struct header *h);
uint32_t both_fragment_response(uint16_t sw, struct span field, size_t at, uint8_t le, struct room *apdu,
                                size_t *next);
uint32_t both_reassemble_response(uint64_t *chain, struct span apdu, struct room *field, uint16_t *sw);
uint32_t both_get_response(uint8_t le, struct room *apdu);

/* Print the table of calls and answers. False where an answer that a call may give was not met, or one was met that
 * it may not give. */
bool print_counts(void);

#endif
