/* cases_session.c - sessions: honest ones of many steps, opening, closing, the bytes of a saved session. */
#include "cases.h"

#include <string.h>

/* ---- Honest sessions ---- */

/* A command's field over the wire: cut, joined, with the header that came out. */
static struct header carry_command(struct header h, const struct room *field, struct room *joined)
{
    static struct room apdu;
    static const size_t sizes[] = {0, 0, 0, 255, 254, 128, 64, 17, 3, 1};
    size_t size = DRAW_FROM(sizes);
    uint64_t chain = 0;
    struct header out = {0, 0, 0};
    uint16_t sw = 0x9000;
    size_t number = 0;
    if (field->len > 300 && size > 0 && size < 64)
        size = 100; /* not hundreds of fragments */
    make_room(joined, field->len + draw_below(3));
    for (; sw == 0x9000; number++) {
        make_room(&apdu, one_in(2) ? 261 : 300);
        expect("fragment_command", both_fragment_command(h, room_span(field), size, number, &apdu), 0);
        expect("reassemble_command", both_reassemble_command(&chain, room_span(&apdu), joined, &sw, &out), 0);
    }
    expect("fragments", number, (field->len + (size == 0 ? 254 : size - 1)) / (size == 0 ? 255 : size));
    expect("joined length", joined->len, field->len);
    expect("joined bytes", memcmp(joined->bytes, field->bytes, field->len) != 0, 0);
    return out;
}

/* A response's field over the wire: pieces, GET RESPONSE, joined. Gives the status word. */
static uint16_t carry_response(uint16_t status, const struct room *field, struct room *joined)
{
    static struct room apdu, request;
    uint64_t chain = 0;
    uint16_t sw = 0x6100;
    size_t at = 0, fragments = 1;
    bool all = field->len > 1000 || one_in(2); /* ask for all from the beginning */
    uint8_t ask = all ? 0 : (uint8_t)draw();
    make_room(joined, field->len + draw_below(3));
    for (;; fragments++) {
        make_room(&apdu, 258);
        expect("fragment_response", both_fragment_response(status, room_span(field), at, ask, &apdu, &at), 0);
        expect("reassemble_response", both_reassemble_response(&chain, room_span(&apdu), joined, &sw), 0);
        if (sw >> 8 != 0x61)
            break;
        make_room(&request, 5);
        expect("get_response", both_get_response((uint8_t)sw, &request), 0);
        ask = request.bytes[4];
    }
    if (all)
        expect("fragments", fragments, (field->len + 255) / 256);
    expect("joined length", joined->len, field->len);
    expect("joined bytes", memcmp(joined->bytes, field->bytes, field->len) != 0, 0);
    return sw;
}

/* One command and its response, over the wire. */
static void exchange(struct saved *host, struct saved *card)
{
    static struct room field, joined, data;
    struct header h;
    struct span sent;
    bool le, le_got;
    size_t len;
    uint16_t sw = 0x9000, got;
    draw_command(&h, &le, &len);
    make_room(&field, field_length(len, le ? 3 : 0));
    sent = draw_data(len);
    expect("wrap_command", both_wrap_command(host, h, le, sent, &field), 0);
    h = carry_command(h, &field, &joined);
    make_room(&data, len + 16);
    expect("unwrap_command", both_unwrap_command(card, h, room_span(&joined), &data, &le_got), 0);
    expect("Le", le_got, le);
    expect("data", len != data.len || (len > 0 && memcmp(data.bytes, sent.bytes, len) != 0), 0);
    do
        len = draw_response_length();
    while (len > 16383);
    while (one_in(2) || sw >> 8 == 0x61)
        sw = (uint16_t)draw();
    make_room(&field, field_length(len, 4));
    sent = draw_data(len);
    expect("wrap_response", both_wrap_response(card, sw, sent, &field), 0);
    expect("status", carry_response(sw, &field, &joined), sw);
    make_room(&data, len + 16);
    expect("unwrap_response", both_unwrap_response(host, sw, room_span(&joined), &data, &got), 0);
    expect("data", len != data.len || (len > 0 && memcmp(data.bytes, sent.bytes, len) != 0), 0);
}

/* Every message call at an end, with small arguments: most are out of turn, at the wrong end or closed. */
static void try_all_calls(const struct saved *s)
{
    static struct room out;
    struct saved copy = *s;
    struct header h = draw_header();
    struct forged forged;
    bool le;
    uint16_t sw = 0x9000, got;
    make_room(&out, 64);
    both_wrap_command(&copy, h, one_in(2), draw_data(8), &out);
    copy = *s;
    forged = forge_field(&copy, false, h, 0);
    make_room(&out, forged.ciphertext);
    both_unwrap_command(&copy, h, room_span(forged.field), &out, &le);
    copy = *s;
    make_room(&out, 64);
    both_wrap_response(&copy, sw, draw_data(8), &out);
    copy = *s;
    forged = forge_field(&copy, true, h, sw);
    make_room(&out, forged.ciphertext);
    both_unwrap_response(&copy, sw, room_span(forged.field), &out, &got);
    copy = *s;
    both_close(&copy);
    both_close(&copy);
}

void case_honest_session(uint64_t index)
{
    struct saved host, card;
    size_t steps = 1 + draw_below(6);
    (void)index;
    open_pair(&host, &card);
    for (size_t i = 0; i < steps; i++) {
        exchange(&host, &card);
        if (one_in(8))
            try_all_calls(one_in(2) ? &host : &card);
    }
    if (one_in(4)) {
        struct saved *end = one_in(2) ? &host : &card;
        expect("close", both_close(end), 0);
        try_all_calls(end);
        expect("close", both_close(end), 0);
    }
}

/* ---- Opening ---- */

void case_open(uint64_t index)
{
    static const size_t suites[] = {2, 2, 2, 7, 7, 7, 0, 1, 3, 6, 8, 258, 263, 0x10002, 0xFFFFFFFF, 0x80000007};
    static const size_t lengths[] = {0, 1, 15, 16, 17, 24, 31, 32, 33, 48};
    static const size_t sizes[] = {0, 1, 137, 138, 138, 138, 139, 200};
    uint8_t bytes[3][64];
    struct span keys[3];
    struct saved s;
    uint32_t suite = (uint32_t)DRAW_FROM(suites);
    bool wide = (suite != 2) != one_in(8); /* at times, the keys of the other suite */
    for (int i = 0; i < 3; i++) {
        draw_bytes(bytes[i], sizeof bytes[i]);
        keys[i].bytes = bytes[i];
        keys[i].len = one_in(8) ? DRAW_FROM(lengths) : wide ? 32 : 16;
    }
    draw_bytes(s.bytes, sizeof s.bytes);
    s.size = DRAW_FROM(sizes);
    if (both_open(index % 2 == 1, suite, keys, &s) == 0)
        try_all_calls(&s);
}

/* ---- The bytes of a saved session ---- */

static void craft_any_session(struct saved *s)
{
    static const size_t counts[] = {0, 1, 2, 3, 65534, 65535};
    uint8_t phase = (uint8_t)draw_below(3);
    uint32_t count = (uint32_t)DRAW_FROM(counts);
    if (phase == BUSY && count == 0)
        count = 1;
    craft_session(s, (uint8_t)draw_below(2), phase, one_in(2) ? 2 : 7, count);
}

/* Each byte changed, one after another. */
void case_damaged_saved_session(uint64_t index)
{
    struct saved s;
    uint8_t *at;
    craft_any_session(&s);
    at = &s.bytes[index % 138];
    switch (index / 138 % 4) {
    case 0:
        *at ^= (uint8_t)(1 << draw_below(8));
        break;
    case 1:
        *at = (uint8_t)(*at + 1);
        break;
    case 2:
        *at = (uint8_t)(*at - 1);
        break;
    default:
        *at = (uint8_t)draw();
    }
    try_all_calls(&s);
}

static void put_number(uint8_t *at, size_t bytes, uint64_t number)
{
    for (size_t i = 0; i < bytes; i++)
        at[i] = (uint8_t)(number >> 8 * (bytes - 1 - i));
}

/* Each part of the session drawn by itself from values on either side of its rule. */
void case_saved_session_rules(uint64_t index)
{
    static const size_t counts[] = {0, 0, 1, 1, 2, 3, 65534, 65535, 65536, 65537, 0x01000000, 0xFFFFFFFF};
    static const size_t phases[] = {0, 0, 1, 1, 2, 3, 255};
    static const size_t suites[] = {2, 2, 2, 7, 7, 7, 0, 1, 3, 8};
    static const size_t sides[] = {0, 0, 0, 1, 1, 1, 2, 255};
    struct saved s;
    (void)index;
    craft_session(&s, (uint8_t)DRAW_FROM(sides), (uint8_t)DRAW_FROM(phases), (uint8_t)DRAW_FROM(suites), 5);
    put_number(s.bytes + 6, 4, DRAW_FROM(counts));
    if (one_in(16))
        put_number(s.bytes, 2, one_in(2) ? 138 : draw());
    if (one_in(16))
        s.bytes[2] = (uint8_t)draw_below(4);
    if (one_in(2))
        memset(s.bytes + 106, 0, 16);
    if (one_in(2))
        memset(s.bytes + 122, 0, 16);
    if (one_in(16)) /* a key that does not end where it should, in one byte */
        s.bytes[10 + 32 * draw_below(3) + 16 + draw_below(16)] ^= 1;
    if (one_in(16))
        memset(s.bytes + 10, 0, 96);
    if (one_in(4) && s.bytes[4] == CLOSED) {
        memset(s.bytes + 6, 0, 132);
        if (one_in(3))
            s.bytes[6 + draw_below(132)] = 1;
    }
    try_all_calls(&s);
}

/* Every length and room from 0 to 200, and lengths beyond the room. */
void case_saved_session_length(uint64_t index)
{
    static const size_t lengths[] = {138, 139, 136, 255, 256, 394, (size_t)1 << 32, ((size_t)1 << 32) + 138, SIZE_MAX};
    struct saved s;
    size_t n = (size_t)(index / 4 % 201);
    craft_any_session(&s);
    switch (index % 4) {
    case 0:
        s.size = s.len = n;
        break;
    case 1:
        s.size = n; /* len stays 138 */
        break;
    case 2:
        s.size = 201;
        s.len = n;
        break;
    default:
        s.size = one_in(2) ? 138 : n;
        s.len = DRAW_FROM(lengths);
    }
    try_all_calls(&s);
}

/* ---- The command limit ---- */

void case_command_limit(uint64_t index)
{
    static struct room out;
    struct saved host, card;
    struct header h = {VERIFY, 0x00, 0x80};
    const struct span none = {NULL, 0};
    uint32_t count = 65535 - (uint32_t)(index % 3);
    open_pair(&host, &card);
    put_number(host.bytes + 6, 4, count);
    put_number(card.bytes + 6, 4, count);
    draw_bytes(host.bytes + 106, 32);
    memcpy(card.bytes + 106, host.bytes + 106, 32);
    for (; count < 65535; count++)
        exchange(&host, &card);
    make_room(&out, 64);
    expect("wrap_command", both_wrap_command(&host, h, false, none, &out), 5);
    try_all_calls(&host);
    try_all_calls(&card);
}

/* ---- The published exchange: VERIFY, GET DATA in six fragments, VERIFY without data ---- */

static struct room published_field, published_out;

static void published_command(struct saved *host, struct saved *card, struct header h, bool le, struct span data,
                              size_t field_len)
{
    bool got;
    make_room(&published_field, field_len);
    expect("wrap_command", both_wrap_command(host, h, le, data, &published_field), 0);
    expect("field_len", published_field.len, field_len);
    h = carry_command(h, &published_field, &published_out);
    make_room(&published_out, 16);
    expect("unwrap_command", both_unwrap_command(card, h, room_span(&published_field), &published_out, &got), 0);
}

static void published_response(struct saved *host, struct saved *card, struct span data, size_t field_len)
{
    uint16_t sw;
    make_room(&published_field, field_len);
    expect("wrap_response", both_wrap_response(card, 0x9000, data, &published_field), 0);
    expect("field_len", published_field.len, field_len);
    expect("status", carry_response(0x9000, &published_field, &published_out), 0x9000);
    make_room(&published_out, data.len + 16);
    expect("unwrap_response",
           both_unwrap_response(host, 0x9000, room_span(&published_field), &published_out, &sw), 0);
}

void case_published_exchange(uint64_t index)
{
    static const uint8_t code[8] = {0x36, 0x35, 0x31, 0x33, 0x35, 0x32, 0x37, 0x35};
    static const uint8_t object[5] = {0x5C, 0x03, 0x5F, 0xC1, 0x05};
    const struct span pairing = {code, 8}, certificate = {object, 5}, none = {NULL, 0};
    const struct header verify = {VERIFY, 0x00, 0x98}, get = {GET_DATA, 0x3F, 0xFF}, retries = {VERIFY, 0x00, 0x80};
    struct saved host, card;
    (void)index;
    open_pair(&host, &card);
    published_command(&host, &card, verify, false, pairing, 0x1D);
    published_response(&host, &card, none, 14);
    published_command(&host, &card, get, true, certificate, 0x20);
    published_response(&host, &card, draw_data(1408 + draw_below(16)), 1443);
    published_command(&host, &card, retries, false, none, 0x0A);
    published_response(&host, &card, none, 14);
}
