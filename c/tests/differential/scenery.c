/* scenery.c - what the kinds of cases share: sessions, messages and sizes to call with. */
#include "cases.h"

#include <stdio.h>
#include <stdlib.h>
#include <string.h>

void expect(const char *what, uint64_t answer, uint64_t wanted)
{
    if (answer != wanted)
        unexpected(what, answer, wanted);
}

/* ---- Sessions ---- */

static void put_count(struct saved *s, uint32_t count)
{
    s->bytes[6] = (uint8_t)(count >> 24);
    s->bytes[7] = (uint8_t)(count >> 16);
    s->bytes[8] = (uint8_t)(count >> 8);
    s->bytes[9] = (uint8_t)count;
}

void craft_session(struct saved *s, uint8_t side, uint8_t phase, uint8_t suite, uint32_t count)
{
    const uint8_t head[6] = {0x00, 0x88, 0x01, side, phase, suite};
    draw_bytes(s->bytes, sizeof s->bytes);
    memcpy(s->bytes, head, sizeof head);
    put_count(s, count);
    if (suite == 2) {
        for (size_t i = 0; i < 3; i++)
            memset(s->bytes + 10 + 32 * i + 16, 0, 16);
    }
    if (count == 0)
        memset(s->bytes + 106, 0, 32);
    if (phase == BUSY && count == 1)
        memset(s->bytes + 122, 0, 16);
    if (phase == CLOSED)
        memset(s->bytes + 6, 0, 132);
    s->len = 138;
    s->size = one_in(4) ? 138 + draw_below(64) : 138;
}

void spoil_session(struct saved *s)
{
    static const size_t lengths[] = {0, 1, 2, 6, 137, 139, 255, 256, 138 + 256, SIZE_MAX};
    switch (draw_below(4)) {
    case 0:
        s->size = draw_below(140);
        break;
    case 1:
        s->len = DRAW_FROM(lengths);
        break;
    default:
        s->bytes[draw_below(138)] ^= (uint8_t)(1 + draw_below(255));
    }
}

void draw_session(struct saved *s, uint8_t side, uint8_t phase)
{
    static const size_t counts[] = {0, 1, 1, 2, 3, 255, 256, 65534, 65535, 65535, 65535};
    uint32_t count = (uint32_t)DRAW_FROM(counts);
    uint8_t suite = one_in(2) ? 2 : 7;
    if (one_in(8))
        side ^= 1;
    if (one_in(6))
        phase = (uint8_t)draw_below(3);
    if (phase == BUSY && count == 0)
        count = 1;
    craft_session(s, side, phase, suite, count);
    if (one_in(12))
        spoil_session(s);
}

void open_pair(struct saved *host, struct saved *card)
{
    uint8_t bytes[96];
    size_t len = one_in(2) ? 16 : 32;
    const struct span keys[3] = {{bytes, len}, {bytes + 32, len}, {bytes + 64, len}};
    draw_bytes(bytes, sizeof bytes);
    draw_bytes(host->bytes, sizeof host->bytes);
    draw_bytes(card->bytes, sizeof card->bytes);
    host->size = 138 + draw_below(8);
    card->size = 138 + draw_below(8);
    expect("open_host", both_open(false, len == 16 ? 2 : 7, keys, host), 0);
    expect("open_card", both_open(true, len == 16 ? 2 : 7, keys, card), 0);
}

/* ---- Messages ---- */

struct span draw_data(size_t len)
{
    static uint8_t data[LENT_MAX];
    struct span span = {data, len};
    draw_bytes(data, len);
    /* Data that looks like padding must come through as well. */
    if (len > 0 && one_in(4))
        data[len - 1] = one_in(2) ? 0x80 : 0x00;
    if (len > 20 && one_in(8))
        memset(data + len - 20, 0, 20);
    return span;
}

uint8_t draw_ins(void)
{
    static const uint8_t carried[4] = {VERIFY, CHANGE_REFERENCE_DATA, GENERAL_AUTHENTICATE, GET_DATA};
    static const uint8_t near[8] = {0x21, 0x25, 0x86, 0xCA, 0xC0, 0x00, 0xDB, 0x47};
    if (one_in(8))
        return one_in(2) ? near[draw_below(8)] : (uint8_t)draw();
    return carried[draw_below(4)];
}

struct header draw_header(void)
{
    struct header h = {draw_ins(), (uint8_t)draw(), (uint8_t)draw()};
    return h;
}

uint16_t draw_status(void)
{
    static const size_t near[] = {0x9000, 0x6100, 0x6101, 0x61FF, 0x6000, 0x60FF, 0x6200, 0x6982, 0x63C3, 0x0061};
    if (one_in(2))
        return 0x9000;
    return one_in(2) ? (uint16_t)DRAW_FROM(near) : (uint16_t)draw();
}

size_t draw_command_length(void)
{
    static const size_t lines[] = {0, 0, 1, 5, 8, 14, 15, 16, 17, 31, 32, 33, 111, 112, 113, 127, 128, 239, 240, 241};
    static const size_t ends[] = {2031, 2032, 2046, 2047, 2048, 2049, 2063, 2064, 4096};
    if (one_in(24))
        return one_in(2) ? DRAW_FROM(ends) : draw_below(2049);
    return one_in(3) ? draw_below(300) : DRAW_FROM(lines);
}

size_t draw_response_length(void)
{
    static const size_t lines[] = {0, 0, 1, 15, 16, 17, 111, 112, 113, 223, 224, 239, 240, 241, 479, 480};
    static const size_t ends[] = {16367, 16368, 16382, 16383, 16384, 16385, 16400};
    if (one_in(160))
        return one_in(2) ? DRAW_FROM(ends) : draw_below(16400);
    return one_in(3) ? draw_below(300) : DRAW_FROM(lines);
}

size_t draw_room(size_t needed)
{
    switch (draw_below(8)) {
    case 0:
        return needed == 0 ? 0 : needed - 1;
    case 1:
        return needed == 0 ? 0 : draw_below(needed);
    case 2:
        return needed + 1;
    case 3:
    case 4:
        return needed + draw_below(64);
    default:
        return needed;
    }
}

size_t field_length(size_t p, size_t other)
{
    size_t value = 16 * (p / 16 + 1) + 1;
    size_t head = value < 128 ? 2 : value < 256 ? 3 : 4;
    return (p == 0 ? 0 : head + value) + other + 10;
}

void draw_command(struct header *h, bool *le, size_t *len)
{
    static const uint8_t carried[4] = {VERIFY, CHANGE_REFERENCE_DATA, GENERAL_AUTHENTICATE, GET_DATA};
    *h = draw_header();
    h->ins = carried[draw_below(4)];
    *le = h->ins == GET_DATA || (h->ins == GENERAL_AUTHENTICATE && one_in(2));
    do
        *len = draw_command_length();
    while (*len > 2047 || (*len == 0 && h->ins != VERIFY));
}

void send_command(struct saved *host, struct saved *card, struct room *field)
{
    static struct room data;
    struct header h;
    struct span sent;
    size_t len;
    bool le, got;
    draw_command(&h, &le, &len);
    sent = draw_data(len);
    make_room(field, field_length(len, le ? 3 : 0) + draw_below(4));
    expect("wrap_command", both_wrap_command(host, h, le, sent, field), 0);
    make_room(&data, 2048);
    expect("unwrap_command", both_unwrap_command(card, h, room_span(field), &data, &got), 0);
    expect("Le", got, le);
    expect("data_len", data.len, len);
    expect("data", len > 0 && memcmp(data.bytes, sent.bytes, len) != 0, 0);
}

void send_response(struct saved *host, struct saved *card, struct room *field, uint16_t sw)
{
    static struct room data;
    struct span sent;
    size_t len;
    uint16_t got;
    do
        len = draw_response_length();
    while (len > 16383);
    sent = draw_data(len);
    make_room(field, field_length(len, 4));
    expect("wrap_response", both_wrap_response(card, sw, sent, field), 0);
    make_room(&data, len + 16);
    expect("unwrap_response", both_unwrap_response(host, sw, room_span(field), &data, &got), 0);
    expect("status", got, sw);
    expect("data_len", data.len, len);
    expect("data", len > 0 && memcmp(data.bytes, sent.bytes, len) != 0, 0);
}
