/* cases_chaining.c - the wire: command chaining, response chaining and GET RESPONSE. */
#include "cases.h"

#include <string.h>

static struct room apdu, field;

/* A field to cut: bytes of any content. */
static struct span draw_field(size_t len)
{
    static uint8_t bytes[LENT_MAX];
    struct span span = {bytes, len};
    draw_bytes(bytes, len);
    return span;
}

/* ---- Cutting a command ---- */

static size_t draw_command_field_length(void)
{
    static const size_t lines[] = {0, 1, 2, 10, 29, 32, 253, 254, 255, 256, 257, 510, 511};
    static const size_t ends[] = {2040, 2041, 2065, 2066, 2067, 2068, 4000};
    if (one_in(8))
        return DRAW_FROM(ends);
    return one_in(3) ? draw_below(600) : DRAW_FROM(lines);
}

/* Numbers near the end, and huge ones, also such whose product with the size begins again at 0. */
static size_t draw_fragment_number(size_t len, size_t size)
{
    size_t most = size == 0 || size > 255 ? 255 : size, fragments = (len + most - 1) / most;
    static const size_t huge[] = {SIZE_MAX, SIZE_MAX - 1, SIZE_MAX / 2, SIZE_MAX / 2 + 1, (size_t)1 << 32, 65536, 256};
    switch (draw_below(8)) {
    case 0:
        return DRAW_FROM(huge) + draw_below(2);
    case 1:
        return SIZE_MAX / most + draw_below(3);
    case 2:
        return ((size_t)1 << 32) / most + draw_below(3);
    case 3:
        return fragments;
    case 4:
        return fragments == 0 ? 0 : fragments - 1;
    case 5:
        return fragments + 1;
    default:
        return draw_below(fragments + 1);
    }
}

static void try_fragment_command(void)
{
    static const size_t sizes[] = {0, 0, 1, 2, 16, 100, 128, 254, 255, 255, 256, 257, 511, 512, 65536, (size_t)1 << 32,
                                   ((size_t)1 << 32) + 1, SIZE_MAX / 2 + 1, SIZE_MAX};
    size_t size = DRAW_FROM(sizes), len = draw_command_field_length();
    size_t number = draw_fragment_number(len, size), most = size == 0 ? 255 : size;
    size_t rest = number < len && most < 256 && number * most < len ? len - number * most : 0;
    size_t needed = rest > most ? 5 + most : 6 + rest;
    make_room(&apdu, one_in(8) ? draw_below(8) : draw_room(needed));
    both_fragment_command(draw_header(), draw_field(len), size, number, &apdu);
}

void case_fragment_command(uint64_t index)
{
    (void)index;
    for (int i = 0; i < TRIES; i++)
        try_fragment_command();
}

/* ---- Joining a command ---- */

/* An APDU in the form of a fragment, at times with one thing wrong. */
static struct span draw_command_apdu(struct header h)
{
    static uint8_t bytes[300];
    static const size_t lcs[] = {1, 2, 16, 26, 128, 254, 255};
    size_t lc = one_in(3) ? 1 + draw_below(255) : DRAW_FROM(lcs);
    bool last = one_in(2);
    struct span span = {bytes, 5 + lc + (last ? 1 : 0)};
    draw_bytes(bytes, sizeof bytes);
    bytes[0] = last ? 0x0C : 0x1C;
    bytes[1] = h.ins;
    bytes[2] = h.p1;
    bytes[3] = h.p2;
    bytes[4] = (uint8_t)lc;
    if (last)
        bytes[5 + lc] = 0x00;
    if (!one_in(4))
        return span;
    switch (draw_below(6)) {
    case 0:
        bytes[0] ^= (uint8_t)(1 << draw_below(8));
        break;
    case 1:
        bytes[4] = (uint8_t)(bytes[4] + (one_in(2) ? 1 : -1));
        break;
    case 2:
        span.len = one_in(2) ? span.len + 1 : span.len - 1;
        break;
    case 3:
        span.len = draw_below(8);
        break;
    case 4:
        bytes[span.len - 1] = (uint8_t)draw();
        break;
    default: /* Lc 0, with and without Le */
        bytes[4] = bytes[5] = 0;
        span.len = 5 + draw_below(3);
    }
    return span;
}

/* A chain: empty, in the midst, at its end, over its end, or one that no call leaves. */
static uint64_t draw_command_chain(struct header h)
{
    static const size_t lengths[] = {1,    255,  510,  1000, 1810, 1811,          1812,          2040,
                                     2064, 2065, 2066, 2067, 4096, (size_t)1 << 32, SIZE_MAX >> 24};
    uint64_t header = (uint64_t)h.ins << 16 | (uint64_t)h.p1 << 8 | h.p2;
    switch (draw_below(8)) {
    case 0:
        return 0;
    case 1:
        return one_in(2) ? header : draw();
    case 2: /* another header, in one bit */
        return (uint64_t)DRAW_FROM(lengths) << 24 | (header ^ (uint64_t)1 << draw_below(24));
    case 3:
        return (uint64_t)draw_below(2100) << 24 | header;
    default:
        return (uint64_t)DRAW_FROM(lengths) << 24 | header;
    }
}

static void try_reassemble_command(void)
{
    struct header h = draw_header(), out;
    struct span piece;
    uint64_t chain;
    uint16_t sw;
    size_t joined, needed;
    if (one_in(16))
        memset(&h, 0, sizeof h);
    piece = draw_command_apdu(h);
    chain = draw_command_chain(h);
    joined = chain >> 24 > 2100 ? 2100 : (size_t)(chain >> 24);
    needed = joined + (piece.len > 4 ? piece.bytes[4] : 0);
    make_room(&field, draw_room(needed));
    both_reassemble_command(&chain, piece, &field, &sw, &out);
}

void case_reassemble_command(uint64_t index)
{
    (void)index;
    for (int i = 0; i < TRIES; i++)
        try_reassemble_command();
}

/* A whole chain, in which at times something goes wrong on the way. */
void case_command_chain(uint64_t index)
{
    struct header h = draw_header(), out;
    size_t len = 1 + draw_command_field_length() % 2066, size = one_in(2) ? 0 : 40 + draw_below(216);
    struct span whole = draw_field(len);
    uint64_t chain = 0;
    uint16_t sw;
    (void)index;
    make_room(&field, len + draw_below(300));
    for (size_t number = 0; number < len; number++) {
        make_room(&apdu, 261);
        if (both_fragment_command(h, whole, size, number, &apdu) != 0)
            break;
        if (one_in(24))
            apdu.bytes[draw_below(5)] ^= (uint8_t)(1 << draw_below(8));
        if (one_in(24))
            apdu.len -= 1;
        if (one_in(24))
            chain ^= (uint64_t)1 << draw_below(64);
        if (one_in(24))
            number++; /* a fragment is lost */
        both_reassemble_command(&chain, room_span(&apdu), &field, &sw, &out);
        if (one_in(24)) /* a fragment comes twice */
            both_reassemble_command(&chain, room_span(&apdu), &field, &sw, &out);
    }
}

/* ---- Cutting a response ---- */

static size_t draw_response_field_length(void)
{
    static const size_t lines[] = {0, 1, 2, 14, 31, 255, 256, 257, 258, 510, 511, 512, 513, 514, 1443};
    static const size_t ends[] = {16147, 16402, 16403, 16404, 16405, 18000};
    if (one_in(16))
        return DRAW_FROM(ends);
    return one_in(3) ? draw_below(1500) : DRAW_FROM(lines);
}

static size_t draw_offset(size_t len)
{
    static const size_t huge[] = {SIZE_MAX, SIZE_MAX - 1, SIZE_MAX - 255, SIZE_MAX - 256, SIZE_MAX / 2 + 1,
                                  (size_t)1 << 32, 65536};
    static const size_t lefts[] = {1, 2, 254, 255, 256, 257, 258, 510, 511, 512, 513};
    size_t left = DRAW_FROM(lefts);
    switch (draw_below(8)) {
    case 0:
        return 0;
    case 1:
        return len;
    case 2:
        return len + 1 + draw_below(256);
    case 3:
        return DRAW_FROM(huge);
    case 4:
        return draw_below(len + 1);
    default:
        return left > len ? 0 : len - left;
    }
}

static void try_fragment_response(void)
{
    static const size_t les[] = {0, 0, 1, 2, 127, 128, 254, 255};
    uint8_t le = one_in(2) ? (uint8_t)DRAW_FROM(les) : (uint8_t)draw();
    size_t len = draw_response_field_length(), at = draw_offset(len), most = le == 0 ? 256 : le;
    size_t left = at < len ? len - at : 0, next;
    make_room(&apdu, one_in(8) ? draw_below(4) : draw_room((left < most ? left : most) + 2));
    both_fragment_response(draw_status(), draw_field(len), at, le, &apdu, &next);
}

void case_fragment_response(uint64_t index)
{
    (void)index;
    for (int i = 0; i < TRIES; i++)
        try_fragment_response();
}

/* ---- Joining a response ---- */

static struct span draw_response_apdu(void)
{
    static uint8_t bytes[600];
    static const size_t lengths[] = {0, 0, 1, 2, 14, 163, 254, 255, 256, 256, 257, 258, 259, 512};
    size_t len = one_in(3) ? draw_below(260) : DRAW_FROM(lengths);
    struct span span = {bytes, len + 2};
    draw_bytes(bytes, sizeof bytes);
    bytes[len] = one_in(2) ? 0x61 : one_in(8) ? (uint8_t)draw() : 0x90;
    if (one_in(2))
        bytes[len + 1] = 0x00;
    if (one_in(16))
        span.len = draw_below(4);
    return span;
}

static uint64_t draw_response_chain(void)
{
    static const size_t lengths[] = {0, 0, 0, 1, 255, 256, 512, 1280};
    static const size_t ends[] = {16146, 16147, 16148, 16402, 16403, 16404, 16405, 65536, (size_t)1 << 32,
                                  SIZE_MAX / 2 + 1, SIZE_MAX - 256, SIZE_MAX - 255, SIZE_MAX};
    if (one_in(8))
        return DRAW_FROM(ends);
    return one_in(2) ? draw_below(2000) : DRAW_FROM(lengths);
}

static void try_reassemble_response(void)
{
    struct span piece = draw_response_apdu();
    uint64_t chain = draw_response_chain();
    size_t joined = chain > 16500 ? 16500 : (size_t)chain;
    uint16_t sw;
    make_room(&field, draw_room(joined + (piece.len > 2 ? piece.len - 2 : 0)));
    both_reassemble_response(&chain, piece, &field, &sw);
}

void case_reassemble_response(uint64_t index)
{
    (void)index;
    for (int i = 0; i < TRIES; i++)
        try_reassemble_response();
}

void case_response_chain(uint64_t index)
{
    size_t len = 1 + draw_response_field_length() % 16403, at = 0;
    struct span whole = draw_field(len);
    uint64_t chain = 0;
    uint16_t sw = 0x6100;
    (void)index;
    make_room(&field, len + draw_below(300));
    while (sw >> 8 == 0x61) {
        make_room(&apdu, 258);
        if (both_fragment_response(0x9000, whole, at, (uint8_t)sw, &apdu, &at) != 0)
            break;
        if (one_in(24))
            apdu.bytes[apdu.len - 2] ^= (uint8_t)(1 << draw_below(8));
        if (one_in(24))
            apdu.len -= 1;
        if (one_in(24))
            chain ^= (uint64_t)1 << draw_below(64);
        both_reassemble_response(&chain, room_span(&apdu), &field, &sw);
        if (one_in(24)) /* a fragment comes twice */
            both_reassemble_response(&chain, room_span(&apdu), &field, &sw);
    }
}

void case_get_response(uint64_t index)
{
    make_room(&apdu, draw_room(5));
    both_get_response((uint8_t)index, &apdu);
}
