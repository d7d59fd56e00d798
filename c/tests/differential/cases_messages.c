/* cases_messages.c - the four message calls: every refusal and their order, damaged and repeated messages. */
#include "cases.h"

#include <string.h>

/* ---- Each call with arguments drawn on either side of each of its rules, several broken at once ---- */

static void try_wrap_command(void)
{
    static const size_t over[] = {2048, 2049, 2063, 4096, 65536 / 2};
    static struct room field;
    struct saved s;
    struct header h = draw_header();
    bool le = one_in(4) ? one_in(2) : h.ins == GET_DATA || (h.ins == GENERAL_AUTHENTICATE && one_in(2));
    size_t len = one_in(12) ? DRAW_FROM(over) : draw_command_length();
    draw_session(&s, HOST, READY);
    make_room(&field, draw_room(len > 2047 && one_in(2) ? 20 : field_length(len, le ? 3 : 0)));
    both_wrap_command(&s, h, le, draw_data(len), &field);
}

void case_wrap_command(uint64_t index)
{
    (void)index;
    for (int i = 0; i < TRIES; i++)
        try_wrap_command();
}

static void try_wrap_response(void)
{
    static const size_t over[] = {16384, 16385, 16399, 20000};
    static struct room field;
    struct saved s;
    size_t len = one_in(24) ? DRAW_FROM(over) : draw_response_length();
    uint16_t sw = draw_status();
    draw_session(&s, CARD, BUSY);
    make_room(&field, draw_room(len > 16383 && one_in(2) ? 20 : field_length(len, 4)));
    both_wrap_response(&s, sw, draw_data(len), &field);
}

void case_wrap_response(uint64_t index)
{
    (void)index;
    for (int i = 0; i < TRIES; i++)
        try_wrap_response();
}

/* Make a field longer than the limit, keeping its beginning; seldom exactly at the limit. */
static void stretch(struct room *field, size_t limit)
{
    size_t len = limit + draw_below(3);
    if (field->len < len)
        draw_bytes(field->bytes + field->len, len - field->len);
    field->len = len;
}

void case_unwrap_command(uint64_t index)
{
    static struct room data;
    struct saved s;
    struct header h = draw_header();
    struct forged forged;
    bool le;
    (void)index;
    draw_session(&s, CARD, READY);
    forged = forge_field(&s, false, h, 0);
    if (one_in(16))
        stretch(forged.field, 2066);
    if (one_in(64))
        forged.field->len = 0;
    if (one_in(64))
        h.p1 ^= 1;
    if (one_in(64))
        h.ins = draw_ins();
    make_room(&data, draw_room(forged.ciphertext));
    both_unwrap_command(&s, h, room_span(forged.field), &data, &le);
}

void case_unwrap_response(uint64_t index)
{
    static struct room data;
    struct saved s;
    const struct header none = {0, 0, 0};
    struct forged forged;
    uint16_t sw = draw_status(), got;
    (void)index;
    draw_session(&s, HOST, BUSY);
    forged = forge_field(&s, true, none, sw);
    if (one_in(16))
        stretch(forged.field, 16403);
    if (one_in(16))
        forged.field->len = 0;
    if (one_in(16))
        sw ^= (uint16_t)(1 << draw_below(16));
    make_room(&data, draw_room(forged.ciphertext));
    both_unwrap_response(&s, sw, room_span(forged.field), &data, &got);
}

/* ---- Damage to each position of an honest field ---- */

/* Change the field at a position in one of several ways. */
static void damage(struct room *field, size_t at, uint64_t way)
{
    switch (way) {
    case 0:
        field->bytes[at] ^= (uint8_t)(1 << draw_below(8));
        break;
    case 1:
        field->bytes[at] = (uint8_t)(field->bytes[at] + 1);
        break;
    case 2:
        field->bytes[at] = (uint8_t)draw();
        break;
    case 3:
        field->len = at; /* cut off */
        break;
    case 4: /* a byte more */
        memmove(field->bytes + at + 1, field->bytes + at, field->len - at);
        field->bytes[at] = (uint8_t)draw();
        field->len++;
        break;
    case 5: /* a byte less */
        memmove(field->bytes + at, field->bytes + at + 1, field->len - at - 1);
        field->len--;
        break;
    default:
        field->bytes[at] = one_in(2) ? 0x00 : 0xFF;
    }
}

enum { WAYS = 7 };

/* Short mostly, so that every position has its turn. */
static size_t draw_damaged_length(void)
{
    static const size_t lengths[] = {0, 1, 8, 16, 20, 112, 240};
    return DRAW_FROM(lengths);
}

void case_damaged_command(uint64_t index)
{
    static struct room field, broken, data;
    struct saved host, card, copy;
    struct header h = draw_header(), other;
    size_t len = draw_damaged_length();
    bool le;
    h.ins = len == 0 ? VERIFY : index % 2 == 0 ? GENERAL_AUTHENTICATE : GET_DATA;
    le = h.ins == GET_DATA || (h.ins == GENERAL_AUTHENTICATE && one_in(2));
    open_pair(&host, &card);
    if (one_in(2)) {
        send_command(&host, &card, &field);
        send_response(&host, &card, &field, 0x9000);
    }
    make_room(&field, field_length(len, le ? 3 : 0));
    expect("wrap_command", both_wrap_command(&host, h, le, draw_data(len), &field), 0);
    for (uint64_t way = 0; way < WAYS; way++) {
        copy = card;
        broken = field;
        damage(&broken, (size_t)(index / 2 % field.len), way);
        make_room(&data, 272);
        both_unwrap_command(&copy, h, room_span(&broken), &data, &le);
    }
    other = h;
    if (one_in(2))
        other.p1 ^= (uint8_t)(1 << draw_below(8));
    else
        other.p2 ^= (uint8_t)(1 << draw_below(8));
    make_room(&data, 272);
    expect("unwrap_command", both_unwrap_command(&card, other, room_span(&field), &data, &le), 9);
    expect("unwrap_command", both_unwrap_command(&card, h, room_span(&field), &data, &le), 1);
}

void case_damaged_response(uint64_t index)
{
    static struct room field, broken, data;
    struct saved host, card, copy;
    size_t len = draw_damaged_length();
    uint16_t got;
    open_pair(&host, &card);
    send_command(&host, &card, &field);
    if (one_in(2)) {
        send_response(&host, &card, &field, 0x9000);
        send_command(&host, &card, &field);
    }
    make_room(&field, field_length(len, 4));
    expect("wrap_response", both_wrap_response(&card, 0x9000, draw_data(len), &field), 0);
    for (uint64_t way = 0; way < WAYS; way++) {
        copy = host;
        broken = field;
        damage(&broken, (size_t)(index % field.len), way);
        make_room(&data, 272);
        both_unwrap_response(&copy, 0x9000, room_span(&broken), &data, &got);
    }
    /* Another trailing status, one answer without protection, too little room: the host still waits. */
    make_room(&data, 272);
    expect("unwrap_response", both_unwrap_response(&host, 0x9001, room_span(&field), &data, &got), 7);
    broken.len = 0;
    expect("unwrap_response", both_unwrap_response(&host, 0x6982, room_span(&broken), &data, &got), 13);
    if (len > 0) {
        make_room(&data, 16 * (len / 16 + 1) - 1);
        expect("unwrap_response", both_unwrap_response(&host, 0x9000, room_span(&field), &data, &got), 6);
        make_room(&data, 16 * (len / 16 + 1));
    }
    expect("unwrap_response", both_unwrap_response(&host, 0x9000, room_span(&field), &data, &got), 0);
}

/* ---- Messages repeated, late, from another session, or turned round ---- */

static void try_command(const struct saved *card, struct header h, const struct room *field)
{
    static struct room data;
    struct saved copy = *card;
    bool le;
    make_room(&data, 2048);
    both_unwrap_command(&copy, h, room_span(field), &data, &le);
}

static void try_response(const struct saved *host, const struct room *field)
{
    static struct room data;
    struct saved copy = *host;
    uint16_t sw;
    make_room(&data, 16384);
    both_unwrap_response(&copy, 0x9000, room_span(field), &data, &sw);
}

void case_repeated_messages(uint64_t index)
{
    static struct room commands[3], responses[3];
    struct saved host, card, other_host, other_card;
    const struct header h = {VERIFY, 0, 0};
    (void)index;
    open_pair(&host, &card);
    open_pair(&other_host, &other_card);
    for (size_t i = 0; i < 3; i++) {
        try_command(&card, h, &commands[draw_below(i + 1)]);
        send_command(&host, &card, &commands[i]);
        try_response(&host, &responses[draw_below(i + 1)]);
        try_response(&host, &commands[i]);
        send_response(&host, &card, &responses[i], 0x9000);
        try_response(&host, &responses[i]);
        try_command(&card, h, &commands[i]);
        try_command(&card, h, &responses[i]);
    }
    send_command(&other_host, &other_card, &commands[0]);
    try_response(&other_host, &responses[0]);
    send_response(&other_host, &other_card, &responses[1], 0x9000);
    send_command(&host, &card, &commands[1]);
    try_response(&host, &responses[1]);
    try_response(&host, &responses[2]);
}
