/* See plain_message.h. Section numbers are those of SP 800-73-4 Part 2. */
#include "plain_message.h"

#include <string.h>

#define MOST_COMMANDS 65535
#define HEADER 16     /* the encoded header of 4.2.3 */
#define MAC_OBJECT 10 /* '8E 08' and the tag */

enum { HOST, CARD };
enum { READY, WAITING, CLOSED };

/* ---- the saved session */

/* The pointers are to the saved bytes. */
struct session {
    uint8_t side, phase;
    size_t key_len;
    uint32_t count;
    const uint8_t *enc, *mac, *rmac, *command_chain, *response_chain;
};

static bool zeros(const uint8_t *bytes, size_t len)
{
    uint8_t all = 0;

    for (size_t i = 0; i < len; i++)
        all |= bytes[i];
    return all == 0;
}

/* False if the bytes are no open session's. */
static bool read_session(struct session *s, const uint8_t *saved, size_t len)
{
    if (len != SAVED_SESSION || saved[0] != 0x00 || saved[1] != 0x88 || saved[2] != 0x01)
        return false;
    if (saved[3] > CARD || saved[4] >= CLOSED || (saved[5] != 2 && saved[5] != 7))
        return false;
    s->side = saved[3];
    s->phase = saved[4];
    s->key_len = saved[5] == 2 ? 16 : 32;
    s->count = (uint32_t)saved[6] << 24 | (uint32_t)saved[7] << 16 | (uint32_t)saved[8] << 8 | saved[9];
    s->enc = saved + 10;
    s->mac = saved + 42;
    s->rmac = saved + 74;
    s->command_chain = saved + 106;
    s->response_chain = saved + 122;
    if (s->count > MOST_COMMANDS || (s->phase == WAITING && s->count == 0))
        return false;
    if (s->count == 0 && !zeros(s->command_chain, 32))
        return false;
    if (s->phase == WAITING && s->count == 1 && !zeros(s->response_chain, 16))
        return false;
    return s->key_len == 32 || (zeros(s->enc + 16, 16) && zeros(s->mac + 16, 16) && zeros(s->rmac + 16, 16));
}

/* ---- writing */

/* The length of data with its padding (4.2.2). */
static size_t padded(size_t len)
{
    return 16 * (len / 16 + 1);
}

/* The length of the '87' object. */
static size_t encrypted_object(size_t data_len)
{
    size_t value = 1 + padded(data_len);

    if (data_len == 0)
        return 0;
    return (value > 255 ? 4 : value > 127 ? 3 : 2) + value;
}

/* The IV: the counter, encrypted (4.2.2). */
static void make_iv(const struct cipher *cipher, uint32_t count, uint8_t first, uint8_t iv[16])
{
    memset(iv, 0, 16);
    iv[0] = first;
    for (int i = 0; i < 4; i++)
        iv[15 - i] = (uint8_t)(count >> 8 * i);
    cipher->encrypt_block(iv);
}

/* The '87' object of the data, made in place; nothing without data. */
static void put_encrypted(const struct cipher *cipher, const struct session *s, uint32_t count, uint8_t first,
                          const uint8_t *data, size_t len, uint8_t *to)
{
    size_t text = padded(len), value = 1 + text;
    uint8_t iv[16];

    if (len == 0)
        return;
    *to++ = 0x87;
    if (value > 255) {
        *to++ = 0x82;
        *to++ = (uint8_t)(value >> 8);
    } else if (value > 127) {
        *to++ = 0x81;
    }
    *to++ = (uint8_t)value;
    *to++ = 0x01;
    memcpy(to, data, len);
    to[len] = 0x80;
    memset(to + len + 1, 0, text - len - 1);
    cipher->set_key(s->enc, s->key_len, false);
    make_iv(cipher, count, first, iv);
    cipher->cbc_encrypt(iv, to, text);
}

static void put_mac(uint8_t *to, const uint8_t mac[16])
{
    to[0] = 0x8e;
    to[1] = 8;
    memcpy(to + 2, mac, 8);
}

static bool permitted(uint8_t ins, bool le, size_t data_len)
{
    switch (ins) {
    case 0x20: return !le;
    case 0x24: return !le && data_len > 0;
    case 0xcb: return le && data_len > 0;
    case 0x87: return data_len > 0;
    default: return false;
    }
}

uint32_t plain_wrap_command(const struct cipher *cipher, const uint8_t *session, size_t session_len, uint8_t ins,
                            uint8_t p1, uint8_t p2, bool le, const uint8_t *data, size_t data_len, uint8_t *field,
                            size_t field_size, uint8_t next[16])
{
    const uint8_t header[HEADER] = {0x0c, ins, p1, p2, 0x80};
    uint8_t input[HEADER + LONGEST_COMMAND_FIELD];
    struct session s;
    size_t encrypted, objects;

    if (!read_session(&s, session, session_len) || s.side != HOST || s.phase != READY)
        return 0;
    if (!permitted(ins, le, data_len) || data_len > LONGEST_COMMAND || s.count == MOST_COMMANDS)
        return 0;
    encrypted = encrypted_object(data_len);
    objects = encrypted + (le ? 3 : 0);
    if (field_size < objects + MAC_OBJECT)
        return 0;
    memcpy(input, header, HEADER);
    put_encrypted(cipher, &s, s.count + 1, 0x00, data, data_len, input + HEADER);
    if (le)
        memcpy(input + HEADER + encrypted, "\x97\x01\x00", 3);
    cipher->cmac(s.mac, s.key_len, s.command_chain, input, HEADER + objects, next);
    memcpy(field, input + HEADER, objects);
    put_mac(field + objects, next);
    return (uint32_t)(objects + MAC_OBJECT);
}

uint32_t plain_wrap_response(const struct cipher *cipher, const uint8_t *session, size_t session_len, uint8_t sw1,
                             uint8_t sw2, const uint8_t *data, size_t data_len, uint8_t *field, size_t field_size,
                             uint8_t next[16])
{
    uint8_t status[4] = {0x99, 2, sw1, sw2};
    struct session s;
    size_t objects;

    if (!read_session(&s, session, session_len) || s.side != CARD || s.phase != WAITING)
        return 0;
    if (sw1 == 0x61 || data_len > LONGEST_RESPONSE)
        return 0;
    objects = encrypted_object(data_len) + 4;
    if (field_size < objects + MAC_OBJECT)
        return 0;
    put_encrypted(cipher, &s, s.count, 0x80, data, data_len, field);
    memcpy(field + objects - 4, status, 4);
    cipher->cmac(s.rmac, s.key_len, s.response_chain, field, objects, next);
    put_mac(field + objects, next);
    return (uint32_t)(objects + MAC_OBJECT);
}

/* ---- reading */

/* A response field taken apart: its ciphertext, which may be empty, and its tag. */
struct parts {
    const uint8_t *text, *tag;
    size_t text_len;
    size_t objects; /* the length of what stands before '8E' */
};

/* The value's length, in its shortest form, and the place after it; 0 if it is no such length. */
static size_t read_length(const uint8_t *field, size_t field_len, size_t *place)
{
    const uint8_t *at = field + *place;
    size_t left = field_len - *place;

    if (left >= 1 && at[0] <= 127) {
        *place += 1;
        return at[0];
    }
    if (left >= 2 && at[0] == 0x81 && at[1] > 127) {
        *place += 2;
        return at[1];
    }
    if (left >= 3 && at[0] == 0x82 && at[1] > 0) {
        *place += 3;
        return (size_t)at[1] << 8 | at[2];
    }
    return 0;
}

/* False if the field is badly formed or lacks an object. */
static bool read_response(struct parts *p, const uint8_t *field, size_t field_len, uint8_t sw1, uint8_t sw2)
{
    size_t place = 0, len;

    p->text = NULL;
    p->text_len = 0;
    if (field_len > 0 && field[0] == 0x87) {
        place = 1;
        len = read_length(field, field_len, &place);
        if (len < 17 || len % 16 != 1 || len > 1 + padded(LONGEST_RESPONSE) || len > field_len - place)
            return false;
        if (field[place] != 0x01)
            return false;
        p->text = field + place + 1;
        p->text_len = len - 1;
        place += len;
    }
    if (field_len - place != 4 + MAC_OBJECT)
        return false;
    field += place;
    if (field[0] != 0x99 || field[1] != 2 || field[2] != sw1 || field[3] != sw2)
        return false;
    if (field[4] != 0x8e || field[5] != 8)
        return false;
    p->objects = place + 4;
    p->tag = field + 6;
    return true;
}

/* The length without padding, 0 if the padding is wrong (4.2.2). */
static size_t unpadded(const uint8_t *text, size_t len)
{
    size_t end = len;

    while (end > len - 16 && text[end - 1] == 0)
        end--;
    return end > len - 16 && text[end - 1] == 0x80 ? end - 1 : 0;
}

uint32_t plain_unwrap_response(const struct cipher *cipher, const uint8_t *session, size_t session_len,
                               const uint8_t *field, size_t field_len, uint8_t sw1, uint8_t sw2, uint8_t *data,
                               size_t data_size, uint8_t next[16])
{
    uint8_t text[LONGEST_RESPONSE + 1], iv[16], mac[16];
    struct session s;
    struct parts p;
    size_t len = 0;

    if (!read_session(&s, session, session_len) || s.side != HOST || s.phase != WAITING)
        return 0;
    if (field_len > LONGEST_RESPONSE_FIELD || !read_response(&p, field, field_len, sw1, sw2))
        return 0;
    if (data_size < p.text_len)
        return 0;
    cipher->cmac(s.rmac, s.key_len, s.response_chain, field, p.objects, mac);
    if (memcmp(mac, p.tag, 8) != 0)
        return 0;
    if (p.text_len > 0) {
        cipher->set_key(s.enc, s.key_len, true);
        make_iv(cipher, s.count, 0x80, iv);
        cipher->cbc_decrypt(iv, p.text, text, p.text_len);
        len = unpadded(text, p.text_len);
        if (len == 0)
            return 0;
        memcpy(data, text, len);
    }
    memcpy(next, mac, 16);
    return (uint32_t)len;
}
