/* reference.c - secure messaging between a PIV card and its host, over OpenSSL's libcrypto: see reference.h.
 *
 * The sections follow the rules: the saved session, AES and CMAC, the data objects, the four message calls, and
 * the wire. Each call makes its checks in the order of the rules, then does its work, then writes.
 *
 * How the rules are read where they leave room:
 *   - Opening: 11, 12, then 6 (room for the session), which only the C interface has.
 *   - 16 stands before all other refusals of a call with a session; its length and room count as its bytes do.
 *   - Host wraps: 3 covers INS, Le and lacking data, before 4; so 2,048 bytes for an unknown INS are 3.
 *   - Card unwraps: '97' in VERIFY or CHANGE REFERENCE DATA is 7 also where '87' or '8E' is missing; 8 only where
 *     the whole field reads without a breach.
 *   - Host unwraps: a '99' that differs from the trailing status is 7 also where '8E' is missing. A '99' with SW1 61
 *     is accepted under a right MAC.
 *   - The room of an unwrap is E, 0 without '87'. Padding is looked for in the last 16 bytes only; E = 16 with '80'
 *     first is P = 0, so 10.
 *   - Joining a command: a state of length 0 with a header other than 0, and one over 2,066, are 14; 2,066 is
 *     possible, and any fragment behind it is 4.
 *   - Joining a response: a state over 16,403 is 14; an empty last fragment is taken, also as the first.
 *   - At a refused joining the state is 0 and the buffer is not touched.
 */
#include "reference.h"

#include <openssl/evp.h>
#include <stdio.h>
#include <stdlib.h>
#include <string.h>

/* The numbered answers. */
enum answer {
    OK = 0,
    SESSION_CLOSED = 1,
    OUT_OF_TURN = 2,
    NOT_PERMITTED = 3,
    TOO_LONG = 4,
    LIMIT_REACHED = 5,
    TOO_SMALL = 6,
    MALFORMED = 7,
    MISSING_OBJECT = 8,
    BAD_MAC = 9,
    BAD_PADDING = 10,
    UNKNOWN_SUITE = 11,
    BAD_KEY_LENGTH = 12,
    UNPROTECTED = 13,
    BROKEN_CHAIN = 14,
    FRAGMENT_TOO_LONG = 15,
    BAD_SESSION = 16
};

/* Numbers that end a thing. */
enum {
    COMMAND_DATA_MAX = 2047,
    RESPONSE_DATA_MAX = 16383,
    COMMAND_FIELD_MAX = 2066,
    RESPONSE_FIELD_MAX = 16403,
    COMMAND_CIPHERTEXT_MAX = 2048,
    RESPONSE_CIPHERTEXT_MAX = 16384,
    COMMAND_LIMIT = 65535
};

enum { BLOCK = 16, TAG = 8, MAC_OBJECT = 2 + TAG, SESSION_BYTES = 138 };

/* ---- The saved session ---- */

enum { HOST = 0, CARD = 1 };
enum { READY = 0, BUSY = 1, CLOSED = 2 };
enum { CS2 = 2, CS7 = 7 };
enum { ENC = 0, MAC = 1, RMAC = 2 };

struct session {
    uint8_t side;
    uint8_t phase;
    uint8_t suite;
    uint32_t count;
    uint8_t keys[3][32];
    uint8_t command_mcv[BLOCK];
    uint8_t response_mcv[BLOCK];
};

static bool all_zero(const uint8_t *bytes, size_t len)
{
    for (size_t i = 0; i < len; i++) {
        if (bytes[i] != 0)
            return false;
    }
    return true;
}

static size_t key_length(const struct session *s)
{
    return s->suite == CS2 ? 16 : 32;
}

/* Take the bytes apart, whether they keep the rules or not. */
static void parse_session(struct session *s, const uint8_t *bytes)
{
    s->side = bytes[3];
    s->phase = bytes[4];
    s->suite = bytes[5];
    s->count = (uint32_t)bytes[6] << 24 | (uint32_t)bytes[7] << 16 | (uint32_t)bytes[8] << 8 | bytes[9];
    memcpy(s->keys, bytes + 10, 96);
    memcpy(s->command_mcv, bytes + 106, BLOCK);
    memcpy(s->response_mcv, bytes + 122, BLOCK);
}

/* The rules of an open session, after side, phase and suite. */
static bool open_session_is_valid(const struct session *s)
{
    if (s->suite == CS2) {
        for (int i = 0; i < 3; i++) {
            if (!all_zero(s->keys[i] + 16, 16))
                return false;
        }
    }
    if (s->count > COMMAND_LIMIT)
        return false;
    if (s->phase == BUSY && s->count == 0)
        return false;
    if (s->count == 0 && !all_zero(s->command_mcv, BLOCK))
        return false;
    if (s->count == 0 && !all_zero(s->response_mcv, BLOCK))
        return false;
    /* The first response is still to come, on either side. */
    if (s->phase == BUSY && s->count == 1 && !all_zero(s->response_mcv, BLOCK))
        return false;
    return true;
}

static bool read_session(struct session *s, const uint8_t *bytes, size_t size, size_t len)
{
    if (len != SESSION_BYTES || len > size)
        return false;
    if (bytes[0] != 0x00 || bytes[1] != 0x88)
        return false;
    if (bytes[2] != 0x01)
        return false;
    parse_session(s, bytes);
    if (s->side != HOST && s->side != CARD)
        return false;
    if (s->suite != CS2 && s->suite != CS7)
        return false;
    if (s->phase == CLOSED)
        return all_zero(bytes + 6, SESSION_BYTES - 6);
    if (s->phase != READY && s->phase != BUSY)
        return false;
    return open_session_is_valid(s);
}

static void write_session(const struct session *s, uint8_t *bytes)
{
    bytes[0] = 0x00;
    bytes[1] = 0x88;
    bytes[2] = 0x01;
    bytes[3] = s->side;
    bytes[4] = s->phase;
    bytes[5] = s->suite;
    bytes[6] = (uint8_t)(s->count >> 24);
    bytes[7] = (uint8_t)(s->count >> 16);
    bytes[8] = (uint8_t)(s->count >> 8);
    bytes[9] = (uint8_t)s->count;
    memcpy(bytes + 10, s->keys, 96);
    memcpy(bytes + 106, s->command_mcv, BLOCK);
    memcpy(bytes + 122, s->response_mcv, BLOCK);
}

/* Keys, count and chaining values become zero; side and suite stay. */
static void close_session(struct session *s)
{
    s->phase = CLOSED;
    s->count = 0;
    memset(s->keys, 0, sizeof s->keys);
    memset(s->command_mcv, 0, BLOCK);
    memset(s->response_mcv, 0, BLOCK);
}

/* The checks that all four message calls begin with, after the session was read: 1, then 2. */
static uint32_t turn_refusal(const struct session *s, uint8_t side, uint8_t phase)
{
    if (s->phase == CLOSED)
        return SESSION_CLOSED;
    if (s->side != side)
        return OUT_OF_TURN;
    if (s->phase != phase)
        return OUT_OF_TURN;
    return OK;
}

static uint32_t open_session(uint8_t side, uint32_t suite, const uint8_t *const keys[3], const size_t lens[3],
                             uint8_t *session, size_t session_size, size_t *session_len)
{
    struct session s;
    memset(&s, 0, sizeof s);
    *session_len = 0;
    if (suite != CS2 && suite != CS7)
        return UNKNOWN_SUITE;
    s.side = side;
    s.suite = (uint8_t)suite;
    for (int i = 0; i < 3; i++) {
        if (lens[i] != key_length(&s))
            return BAD_KEY_LENGTH;
    }
    if (session_size < SESSION_BYTES) {
        *session_len = SESSION_BYTES;
        return TOO_SMALL;
    }
    for (int i = 0; i < 3; i++)
        memcpy(s.keys[i], keys[i], lens[i]);
    write_session(&s, session);
    *session_len = SESSION_BYTES;
    return OK;
}

uint32_t reference_open_host(uint32_t suite, const uint8_t *sk_enc, size_t sk_enc_len, const uint8_t *sk_mac,
                             size_t sk_mac_len, const uint8_t *sk_rmac, size_t sk_rmac_len, uint8_t *session,
                             size_t session_size, size_t *session_len)
{
    const uint8_t *const keys[3] = {sk_enc, sk_mac, sk_rmac};
    const size_t lens[3] = {sk_enc_len, sk_mac_len, sk_rmac_len};
    return open_session(HOST, suite, keys, lens, session, session_size, session_len);
}

uint32_t reference_open_card(uint32_t suite, const uint8_t *sk_enc, size_t sk_enc_len, const uint8_t *sk_mac,
                             size_t sk_mac_len, const uint8_t *sk_rmac, size_t sk_rmac_len, uint8_t *session,
                             size_t session_size, size_t *session_len)
{
    const uint8_t *const keys[3] = {sk_enc, sk_mac, sk_rmac};
    const size_t lens[3] = {sk_enc_len, sk_mac_len, sk_rmac_len};
    return open_session(CARD, suite, keys, lens, session, session_size, session_len);
}

uint32_t reference_close(uint8_t *session, size_t session_size, size_t *session_len)
{
    struct session s;
    if (!read_session(&s, session, session_size, *session_len))
        return BAD_SESSION;
    close_session(&s);
    write_session(&s, session);
    return OK;
}

/* ---- AES and CMAC ---- */

enum use { ECB_ENCRYPT = 0, CBC_ENCRYPT = 1, CBC_DECRYPT = 2 };

static void must(int succeeded)
{
    if (succeeded != 1) {
        fputs("reference: libcrypto failed\n", stderr);
        abort();
    }
}

/* A context for each key size and use; making one anew for each call would take most of the time. */
static EVP_CIPHER_CTX *context(enum use use, size_t key_len)
{
    static EVP_CIPHER_CTX *contexts[3][2];
    int wide = key_len == 32;
    if (contexts[use][wide] == NULL) {
        const EVP_CIPHER *ecb = wide ? EVP_aes_256_ecb() : EVP_aes_128_ecb();
        const EVP_CIPHER *cbc = wide ? EVP_aes_256_cbc() : EVP_aes_128_cbc();
        EVP_CIPHER_CTX *fresh = EVP_CIPHER_CTX_new();
        must(fresh != NULL);
        must(EVP_CipherInit_ex(fresh, use == ECB_ENCRYPT ? ecb : cbc, NULL, NULL, NULL, use != CBC_DECRYPT));
        contexts[use][wide] = fresh;
    }
    return contexts[use][wide];
}

/* Whole blocks only; iv is not used by ECB. */
static void aes(enum use use, const uint8_t *key, size_t key_len, const uint8_t *iv, const uint8_t *in, size_t len,
                uint8_t *out)
{
    EVP_CIPHER_CTX *c = context(use, key_len);
    int written = 0;
    must(EVP_CipherInit_ex(c, NULL, NULL, key, iv, -1));
    must(EVP_CIPHER_CTX_set_padding(c, 0));
    must(EVP_CipherUpdate(c, out, &written, in, (int)len));
}

/* Doubling in GF(2^128), constant 87 hex (SP 800-38B, 6.1). */
static void double_block(uint8_t block[BLOCK])
{
    uint8_t carry = block[0] >> 7;
    for (int i = 0; i < BLOCK - 1; i++)
        block[i] = (uint8_t)(block[i] << 1 | block[i + 1] >> 7);
    block[BLOCK - 1] = (uint8_t)(block[BLOCK - 1] << 1);
    if (carry)
        block[BLOCK - 1] ^= 0x87;
}

void reference_cmac(const uint8_t *key, size_t key_len, const uint8_t *message, size_t len, uint8_t mac[16])
{
    static const uint8_t zero[BLOCK];
    static uint8_t blocks[REFERENCE_FORGE_MAX + 64];
    uint8_t subkey[BLOCK];
    size_t total = len;
    memcpy(blocks, message, len);
    aes(ECB_ENCRYPT, key, key_len, NULL, zero, BLOCK, subkey);
    double_block(subkey);
    if (len == 0 || len % BLOCK != 0) {
        total = len / BLOCK * BLOCK + BLOCK;
        memset(blocks + len, 0, total - len);
        blocks[len] = 0x80;
        double_block(subkey); /* the second subkey */
    }
    for (size_t i = 0; i < BLOCK; i++)
        blocks[total - BLOCK + i] ^= subkey[i];
    aes(CBC_ENCRYPT, key, key_len, zero, blocks, total, blocks);
    memcpy(mac, blocks + total - BLOCK, BLOCK);
}

/* CBC's IV is the counter encrypted with SK_ENC; a response's counter begins with '80'. */
static void initialization_vector(const struct session *s, uint32_t number, bool response, uint8_t iv[BLOCK])
{
    uint8_t counter[BLOCK] = {0};
    if (response)
        counter[0] = 0x80;
    counter[12] = (uint8_t)(number >> 24);
    counter[13] = (uint8_t)(number >> 16);
    counter[14] = (uint8_t)(number >> 8);
    counter[15] = (uint8_t)number;
    aes(ECB_ENCRYPT, s->keys[ENC], key_length(s), NULL, counter, BLOCK, iv);
}

/* MAC input of a command: chaining value, '0C' INS P1 P2 '80' and eleven zeros, then the objects. */
static void command_mac(const struct session *s, uint8_t ins, uint8_t p1, uint8_t p2, const uint8_t *objects,
                        size_t len, uint8_t mac[BLOCK])
{
    static uint8_t input[2 * BLOCK + REFERENCE_FORGE_MAX];
    const uint8_t header[BLOCK] = {0x0C, ins, p1, p2, 0x80};
    memcpy(input, s->command_mcv, BLOCK);
    memcpy(input + BLOCK, header, BLOCK);
    memcpy(input + 2 * BLOCK, objects, len);
    reference_cmac(s->keys[MAC], key_length(s), input, 2 * BLOCK + len, mac);
}

/* MAC input of a response: chaining value, then the objects. */
static void response_mac(const struct session *s, const uint8_t *objects, size_t len, uint8_t mac[BLOCK])
{
    static uint8_t input[BLOCK + REFERENCE_FORGE_MAX];
    memcpy(input, s->response_mcv, BLOCK);
    memcpy(input + BLOCK, objects, len);
    reference_cmac(s->keys[RMAC], key_length(s), input, BLOCK + len, mac);
}

/* ---- Data objects ---- */

/* P bytes become E = 16 * (P / 16 + 1). */
static size_t padded_length(size_t p)
{
    return 16 * (p / 16 + 1);
}

/* The length of the '87' object of p bytes of data; data of length 0 makes none. */
static size_t encrypted_object_length(size_t p)
{
    size_t value = 1 + padded_length(p);
    if (p == 0)
        return 0;
    if (value <= 127)
        return 2 + value;
    if (value <= 255)
        return 3 + value;
    return 4 + value;
}

/* Write the '87' object: '01' and the encrypted data. Gives its length. */
static size_t put_encrypted_object(const struct session *s, uint32_t number, bool response, const uint8_t *data,
                                   size_t p, uint8_t *out)
{
    static uint8_t padded[RESPONSE_CIPHERTEXT_MAX + 64];
    size_t total = encrypted_object_length(p), e = padded_length(p), value = 1 + e, at = 0;
    uint8_t iv[BLOCK];
    if (p == 0)
        return 0;
    memcpy(padded, data, p);
    memset(padded + p, 0, e - p);
    padded[p] = 0x80;
    out[at++] = 0x87;
    if (value > 255) {
        out[at++] = 0x82;
        out[at++] = (uint8_t)(value >> 8);
    } else if (value > 127) {
        out[at++] = 0x81;
    }
    out[at++] = (uint8_t)value;
    out[at++] = 0x01;
    initialization_vector(s, number, response, iv);
    aes(CBC_ENCRYPT, s->keys[ENC], key_length(s), iv, padded, e, out + at);
    return total;
}

static void put_mac_object(const uint8_t mac[BLOCK], uint8_t *out)
{
    out[0] = 0x8E;
    out[1] = TAG;
    memcpy(out + 2, mac, TAG);
}

struct object {
    bool present;
    uint8_t tag;
    const uint8_t *value;
    size_t len;
    size_t total; /* with tag and length */
};

/* Read one object at the front of len bytes. Only the shortest form of a length is taken. */
static bool read_object(const uint8_t *field, size_t len, struct object *o)
{
    size_t head;
    if (len < 2)
        return false;
    if (field[1] <= 0x7F) {
        head = 2;
        o->len = field[1];
    } else if (field[1] == 0x81 && len >= 3 && field[2] > 0x7F) {
        head = 3;
        o->len = field[2];
    } else if (field[1] == 0x82 && len >= 4 && field[2] > 0x00) {
        head = 4;
        o->len = (size_t)field[2] << 8 | field[3];
    } else {
        return false;
    }
    if (o->len > len - head)
        return false;
    o->present = true;
    o->tag = field[0];
    o->value = field + head;
    o->total = head + o->len;
    return true;
}

/* Whether the value has the form that its tag demands. */
static bool value_is_right(const struct object *o, size_t ciphertext_max)
{
    switch (o->tag) {
    case 0x87:
        if (o->len < 1 + BLOCK || (o->len - 1) % BLOCK != 0)
            return false;
        return o->len - 1 <= ciphertext_max && o->value[0] == 0x01;
    case 0x97:
        return o->len == 1 && o->value[0] == 0x00;
    case 0x99:
        return o->len == 2;
    default:
        return o->len == TAG;
    }
}

enum { ENCRYPTED = 0, MIDDLE = 1, CHECKSUM = 2, OBJECTS = 3 };

static const uint8_t command_tags[OBJECTS] = {0x87, 0x97, 0x8E};
static const uint8_t response_tags[OBJECTS] = {0x87, 0x99, 0x8E};

/* Walk the field from left to right: each tag must be in the list and stand after the one before. */
static uint32_t read_field(const uint8_t *field, size_t len, const uint8_t tags[OBJECTS], size_t ciphertext_max,
                           struct object found[OBJECTS])
{
    size_t place = 0;
    memset(found, 0, OBJECTS * sizeof found[0]);
    while (len > 0) {
        struct object o;
        if (!read_object(field, len, &o))
            return MALFORMED;
        while (place < OBJECTS && tags[place] != o.tag)
            place++;
        if (place == OBJECTS)
            return MALFORMED;
        if (!value_is_right(&o, ciphertext_max))
            return MALFORMED;
        found[place] = o;
        place++;
        field += o.total;
        len -= o.total;
    }
    return OK;
}

/* Decrypt e bytes and find the padding. Gives the length of the data, 0 where the padding is wrong. */
static size_t decrypt(const struct session *s, uint32_t number, bool response, const uint8_t *ciphertext, size_t e,
                      uint8_t *plain)
{
    uint8_t iv[BLOCK];
    size_t p = e - 1;
    initialization_vector(s, number, response, iv);
    aes(CBC_DECRYPT, s->keys[ENC], key_length(s), iv, ciphertext, e, plain);
    while (p > e - BLOCK && plain[p] == 0x00)
        p--;
    return plain[p] == 0x80 ? p : 0;
}

/* What both unwraps do after the MAC was found right: decrypt, check, and only then write. */
static bool give_data(const struct session *s, uint32_t number, bool response, const struct object *encrypted,
                      uint8_t *data, size_t *data_len)
{
    static uint8_t plain[RESPONSE_CIPHERTEXT_MAX + 64];
    size_t p;
    if (!encrypted->present)
        return true;
    p = decrypt(s, number, response, encrypted->value + 1, encrypted->len - 1, plain);
    if (p == 0)
        return false;
    memcpy(data, plain, p);
    *data_len = p;
    return true;
}

/* ---- The four message calls ---- */

enum { VERIFY = 0x20, CHANGE_REFERENCE_DATA = 0x24, GENERAL_AUTHENTICATE = 0x87, GET_DATA = 0xCB };

static bool ins_is_permitted(uint8_t ins)
{
    return ins == VERIFY || ins == CHANGE_REFERENCE_DATA || ins == GENERAL_AUTHENTICATE || ins == GET_DATA;
}

static bool le_is_permitted(uint8_t ins)
{
    return ins == GENERAL_AUTHENTICATE || ins == GET_DATA;
}

static bool command_is_permitted(uint8_t ins, bool le, size_t data_len)
{
    if (!ins_is_permitted(ins))
        return false;
    if (le && !le_is_permitted(ins))
        return false;
    if (!le && ins == GET_DATA)
        return false;
    return data_len > 0 || ins == VERIFY;
}

uint32_t reference_wrap_command(uint8_t *session, size_t session_size, size_t *session_len, uint8_t ins, uint8_t p1,
                                uint8_t p2, bool le, const uint8_t *data, size_t data_len, uint8_t *field,
                                size_t field_size, size_t *field_len)
{
    struct session host;
    size_t needed, at;
    uint32_t refusal;
    *field_len = 0;
    if (!read_session(&host, session, session_size, *session_len))
        return BAD_SESSION;
    refusal = turn_refusal(&host, HOST, READY);
    if (refusal != OK)
        return refusal;
    if (!command_is_permitted(ins, le, data_len))
        return NOT_PERMITTED;
    if (data_len > COMMAND_DATA_MAX)
        return TOO_LONG;
    if (host.count >= COMMAND_LIMIT)
        return LIMIT_REACHED;
    needed = encrypted_object_length(data_len) + (le ? 3 : 0) + MAC_OBJECT;
    if (field_size < needed) {
        *field_len = needed;
        return TOO_SMALL;
    }
    host.count++; /* a command without data uses up its number too */
    at = put_encrypted_object(&host, host.count, false, data, data_len, field);
    if (le) {
        memcpy(field + at, "\x97\x01\x00", 3);
        at += 3;
    }
    command_mac(&host, ins, p1, p2, field, at, host.command_mcv); /* all 16 bytes are the next chaining value */
    put_mac_object(host.command_mcv, field + at);
    host.phase = BUSY;
    write_session(&host, session);
    *field_len = needed;
    return OK;
}

/* Read a command's field: 7 or 8, or OK with the objects. */
static uint32_t read_command(uint8_t ins, const uint8_t *field, size_t len, struct object found[OBJECTS])
{
    if (read_field(field, len, command_tags, COMMAND_CIPHERTEXT_MAX, found) != OK)
        return MALFORMED;
    if (found[MIDDLE].present && !le_is_permitted(ins))
        return MALFORMED;
    if (!found[CHECKSUM].present)
        return MISSING_OBJECT;
    if (!found[MIDDLE].present && ins == GET_DATA)
        return MISSING_OBJECT;
    if (!found[ENCRYPTED].present && ins != VERIFY)
        return MISSING_OBJECT;
    return OK;
}

/* The card's checks before any cryptography: 1, 2, 3, 4, 5, then 7 or 8, 6. */
static uint32_t unwrap_command_refusal(const struct session *card, uint8_t ins, const uint8_t *field,
                                       size_t field_len, size_t data_size, struct object found[OBJECTS])
{
    uint32_t refusal = turn_refusal(card, CARD, READY);
    if (refusal != OK)
        return refusal;
    if (!ins_is_permitted(ins))
        return NOT_PERMITTED;
    if (field_len > COMMAND_FIELD_MAX)
        return TOO_LONG;
    if (card->count >= COMMAND_LIMIT)
        return LIMIT_REACHED;
    refusal = read_command(ins, field, field_len, found);
    if (refusal != OK)
        return refusal;
    if (found[ENCRYPTED].present && data_size < found[ENCRYPTED].len - 1)
        return TOO_SMALL; /* E is asked for, although only P bytes are written */
    return OK;
}

uint32_t reference_unwrap_command(uint8_t *session, size_t session_size, size_t *session_len, uint8_t ins,
                                  uint8_t p1, uint8_t p2, const uint8_t *field, size_t field_len, uint8_t *data,
                                  size_t data_size, size_t *data_len, bool *le)
{
    struct session card;
    struct object found[OBJECTS];
    uint8_t mac[BLOCK];
    uint32_t answer;
    *data_len = 0;
    *le = false;
    if (!read_session(&card, session, session_size, *session_len))
        return BAD_SESSION;
    answer = unwrap_command_refusal(&card, ins, field, field_len, data_size, found);
    if (answer == TOO_SMALL)
        *data_len = found[ENCRYPTED].len - 1;
    if (answer != OK)
        return answer;
    command_mac(&card, ins, p1, p2, field, field_len - MAC_OBJECT, mac);
    if (memcmp(mac, found[CHECKSUM].value, TAG) != 0)
        answer = BAD_MAC;
    else if (!give_data(&card, card.count + 1, false, &found[ENCRYPTED], data, data_len))
        answer = BAD_PADDING;
    if (answer == OK) {
        *le = found[MIDDLE].present;
        card.count++;
        card.phase = BUSY;
        memcpy(card.command_mcv, mac, BLOCK);
    } else {
        close_session(&card);
    }
    write_session(&card, session);
    return answer;
}

uint32_t reference_wrap_response(uint8_t *session, size_t session_size, size_t *session_len, uint16_t sw,
                                 const uint8_t *data, size_t data_len, uint8_t *field, size_t field_size,
                                 size_t *field_len)
{
    struct session card;
    size_t needed, at;
    uint32_t refusal;
    *field_len = 0;
    if (!read_session(&card, session, session_size, *session_len))
        return BAD_SESSION;
    refusal = turn_refusal(&card, CARD, BUSY);
    if (refusal != OK)
        return refusal;
    if (sw >> 8 == 0x61)
        return NOT_PERMITTED;
    if (data_len > RESPONSE_DATA_MAX)
        return TOO_LONG;
    needed = encrypted_object_length(data_len) + 4 + MAC_OBJECT;
    if (field_size < needed) {
        *field_len = needed;
        return TOO_SMALL;
    }
    at = put_encrypted_object(&card, card.count, true, data, data_len, field);
    field[at++] = 0x99;
    field[at++] = 2;
    field[at++] = (uint8_t)(sw >> 8);
    field[at++] = (uint8_t)sw;
    response_mac(&card, field, at, card.response_mcv); /* all 16 bytes are the next chaining value */
    put_mac_object(card.response_mcv, field + at);
    card.phase = READY;
    write_session(&card, session);
    *field_len = needed;
    return OK;
}

/* Read a response's field: 7 or 8, or OK with the objects. */
static uint32_t read_response(uint16_t sw, const uint8_t *field, size_t len, struct object found[OBJECTS])
{
    const struct object *status = &found[MIDDLE];
    if (read_field(field, len, response_tags, RESPONSE_CIPHERTEXT_MAX, found) != OK)
        return MALFORMED;
    if (status->present && (status->value[0] != sw >> 8 || status->value[1] != (sw & 0xFF)))
        return MALFORMED;
    if (!status->present || !found[CHECKSUM].present)
        return MISSING_OBJECT;
    return OK;
}

/* The host's checks before any cryptography: 1, 2, 13, 4, then 7 or 8, 6. */
static uint32_t unwrap_response_refusal(const struct session *host, uint16_t sw, const uint8_t *field,
                                        size_t field_len, size_t data_size, struct object found[OBJECTS])
{
    uint32_t refusal = turn_refusal(host, HOST, BUSY);
    if (refusal != OK)
        return refusal;
    if (field_len == 0)
        return UNPROTECTED;
    if (field_len > RESPONSE_FIELD_MAX)
        return TOO_LONG;
    refusal = read_response(sw, field, field_len, found);
    if (refusal != OK)
        return refusal;
    if (found[ENCRYPTED].present && found[ENCRYPTED].len - 1 > data_size)
        return TOO_SMALL; /* E again */
    return OK;
}

uint32_t reference_unwrap_response(uint8_t *session, size_t session_size, size_t *session_len, uint16_t sw,
                                   const uint8_t *field, size_t field_len, uint8_t *data, size_t data_size,
                                   size_t *data_len, uint16_t *authentic_sw)
{
    struct session host;
    struct object found[OBJECTS];
    uint8_t mac[BLOCK];
    uint32_t answer;
    *data_len = 0;
    *authentic_sw = 0;
    if (!read_session(&host, session, session_size, *session_len))
        return BAD_SESSION;
    answer = unwrap_response_refusal(&host, sw, field, field_len, data_size, found);
    if (answer == UNPROTECTED)
        *authentic_sw = sw; /* the status, unverified */
    if (answer == TOO_SMALL)
        *data_len = found[ENCRYPTED].len - 1;
    if (answer != OK)
        return answer;
    response_mac(&host, field, field_len - MAC_OBJECT, mac);
    if (memcmp(mac, found[CHECKSUM].value, TAG) != 0)
        answer = BAD_MAC;
    else if (!give_data(&host, host.count, true, &found[ENCRYPTED], data, data_len))
        answer = BAD_PADDING;
    if (answer == OK) {
        *authentic_sw = sw;
        host.phase = READY;
        memcpy(host.response_mcv, mac, BLOCK);
    } else {
        close_session(&host);
    }
    write_session(&host, session);
    return answer;
}

/* ---- The wire ---- */

uint32_t reference_fragment_command(uint8_t ins, uint8_t p1, uint8_t p2, const uint8_t *field, size_t field_len,
                                    size_t size, size_t number, uint8_t *apdu, size_t apdu_size, size_t *apdu_len)
{
    size_t most = size == 0 ? 255 : size, fragments, lc, needed;
    bool last;
    *apdu_len = 0;
    if (size > 255)
        return FRAGMENT_TOO_LONG;
    if (field_len > COMMAND_FIELD_MAX)
        return TOO_LONG;
    fragments = (field_len + most - 1) / most;
    if (number >= fragments)
        return BROKEN_CHAIN;
    last = number == fragments - 1;
    lc = last ? field_len - number * most : most; /* number is small here: no overflow */
    needed = 5 + lc + (last ? 1 : 0);
    if (apdu_size < needed) {
        *apdu_len = needed;
        return TOO_SMALL;
    }
    apdu[0] = last ? 0x0C : 0x1C;
    apdu[1] = ins;
    apdu[2] = p1;
    apdu[3] = p2;
    apdu[4] = (uint8_t)lc;
    memcpy(apdu + 5, field + number * most, lc);
    if (last)
        apdu[5 + lc] = 0x00;
    *apdu_len = needed;
    return OK;
}

/* Whether these are the exact bytes of a fragment: Lc 1 to 255, a final 00 on the last one only. */
static bool is_command_fragment(const uint8_t *apdu, size_t len)
{
    if (len < 6 || apdu[4] == 0)
        return false;
    if (apdu[0] == 0x1C)
        return len == 5 + (size_t)apdu[4];
    if (apdu[0] == 0x0C)
        return len == 6 + (size_t)apdu[4] && apdu[len - 1] == 0x00;
    return false;
}

/* Whether the chain's state is one that fragments can lead to, and this header is the chain's. */
static bool continues_chain(uint64_t joined, uint32_t chain_header, uint32_t header)
{
    if (joined == 0)
        return chain_header == 0;
    if (joined > COMMAND_FIELD_MAX)
        return false;
    return chain_header == header;
}

uint32_t reference_reassemble_command(uint64_t *chain, const uint8_t *apdu, size_t apdu_len, uint8_t *field,
                                      size_t field_size, size_t *field_len, uint16_t *sw, uint8_t *ins, uint8_t *p1,
                                      uint8_t *p2)
{
    uint64_t joined = *chain >> 24;
    uint32_t chain_header = (uint32_t)(*chain & 0xFFFFFF), header;
    size_t total;
    *chain = 0; /* any refusal drops what was joined */
    *field_len = 0;
    *sw = 0;
    *ins = *p1 = *p2 = 0;
    if (!is_command_fragment(apdu, apdu_len))
        return MALFORMED;
    header = (uint32_t)apdu[1] << 16 | (uint32_t)apdu[2] << 8 | apdu[3];
    if (!continues_chain(joined, chain_header, header))
        return BROKEN_CHAIN;
    total = (size_t)joined + apdu[4];
    if (total > COMMAND_FIELD_MAX)
        return TOO_LONG;
    *field_len = total;
    if (total > field_size)
        return TOO_SMALL;
    memcpy(field + joined, apdu + 5, apdu[4]);
    if (apdu[0] == 0x1C) {
        *chain = (uint64_t)total << 24 | header;
        *sw = 0x9000;
    } else {
        *ins = apdu[1];
        *p1 = apdu[2];
        *p2 = apdu[3];
    }
    return OK;
}

/* With n bytes left: the true status for 0, 61 n for 1 to 255, 61 00 from 256 on. */
static uint16_t fragment_status(uint16_t sw, size_t left)
{
    if (left == 0)
        return sw;
    return left <= 255 ? (uint16_t)(0x6100 + left) : 0x6100;
}

uint32_t reference_fragment_response(uint16_t sw, const uint8_t *field, size_t field_len, size_t at, uint8_t le,
                                     uint8_t *apdu, size_t apdu_size, size_t *apdu_len, size_t *next)
{
    size_t most = le == 0 ? 256 : le, n;
    uint16_t status;
    *apdu_len = 0;
    *next = 0;
    if ((sw & 0xFF00) == 0x6100)
        return NOT_PERMITTED;
    if (field_len > RESPONSE_FIELD_MAX)
        return TOO_LONG;
    if (at >= field_len)
        return BROKEN_CHAIN;
    n = field_len - at < most ? field_len - at : most;
    *apdu_len = n + 2;
    if (apdu_size < n + 2)
        return TOO_SMALL;
    status = fragment_status(sw, field_len - at - n);
    memcpy(apdu, field + at, n);
    apdu[n] = (uint8_t)(status >> 8);
    apdu[n + 1] = (uint8_t)status;
    *next = at + n;
    return OK;
}

uint32_t reference_reassemble_response(uint64_t *chain, const uint8_t *apdu, size_t apdu_len, uint8_t *field,
                                       size_t field_size, size_t *field_len, uint16_t *sw)
{
    uint64_t joined = *chain;
    size_t n = apdu_len - 2, total;
    bool more;
    *chain = 0; /* here too, any refusal drops what was joined */
    *field_len = 0;
    *sw = 0;
    if (apdu_len < 2 || n > 256)
        return MALFORMED;
    more = apdu[n] == 0x61;
    if (more && n == 0)
        return MALFORMED;
    if (joined > RESPONSE_FIELD_MAX)
        return BROKEN_CHAIN;
    total = (size_t)joined + n;
    if (total > RESPONSE_FIELD_MAX)
        return TOO_LONG;
    *field_len = total;
    if (field_size < total)
        return TOO_SMALL;
    if (n > 0)
        memcpy(field + joined, apdu, n);
    *sw = (uint16_t)(apdu[n] << 8 | apdu[n + 1]);
    if (more)
        *chain = total;
    return OK;
}

uint32_t reference_get_response(uint8_t le, uint8_t *apdu, size_t apdu_size, size_t *apdu_len)
{
    const uint8_t request[5] = {0x00, 0xC0, 0x00, 0x00, le};
    *apdu_len = sizeof request;
    if (apdu_size < sizeof request)
        return TOO_SMALL;
    memcpy(apdu, request, sizeof request);
    return OK;
}

/* ---- For forged fields ---- */

void reference_forge_ciphertext(const uint8_t *receiver, bool response, const uint8_t *padded, size_t len,
                                uint8_t *ciphertext)
{
    struct session s;
    uint8_t iv[BLOCK];
    parse_session(&s, receiver);
    initialization_vector(&s, response ? s.count : s.count + 1, response, iv);
    aes(CBC_ENCRYPT, s.keys[ENC], key_length(&s), iv, padded, len, ciphertext);
}

void reference_forge_mac(const uint8_t *receiver, bool response, uint8_t ins, uint8_t p1, uint8_t p2,
                         const uint8_t *objects, size_t len, uint8_t mac[16])
{
    struct session s;
    parse_session(&s, receiver);
    if (response)
        response_mac(&s, objects, len, mac);
    else
        command_mac(&s, ins, p1, p2, objects, len, mac);
}
