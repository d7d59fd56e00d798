/*
 * The example exchange of SP 800-73-5 Part 2 (draft), page 49: a host and a
 * card send each other three commands and responses under secure messaging,
 * first with suite CS2 and then with CS7.  AES and CMAC are OpenSSL's.
 *
 * This program shares no code with the library; its output is what
 * exchange_calls.c, which goes through the library, must print.
 *
 * Section numbers in the comments are those of SP 800-73-4 Part 2.
 */

#include <stdbool.h>
#include <stdint.h>
#include <stdio.h>
#include <stdlib.h>
#include <string.h>

#include <openssl/evp.h>

enum { BLOCK = 16, TAG = 8, ROOM = 2048 };

/* A list of bytes that grows at its end. */
struct bytes {
    size_t len;
    uint8_t at[ROOM];
};

/* One end's session: its keys, how many commands it has seen, and the two
 * MAC chaining values. */
struct session {
    size_t key_len;
    uint8_t enc[32], mac[32], rmac[32];
    uint32_t count;
    uint8_t command_mcv[BLOCK], response_mcv[BLOCK];
};

struct command {
    const char *name;
    uint8_t ins, p1, p2;
    bool le;
    struct bytes data;
};

struct response {
    uint8_t sw1, sw2;
    struct bytes data;
};

enum direction { COMMAND, RESPONSE };

static void fail(const char *what)
{
    fprintf(stderr, "exchange: %s\n", what);
    exit(1);
}

static void need(bool holds, const char *what)
{
    if (!holds)
        fail(what);
}

/* ---- bytes ---- */

static void put(struct bytes *to, const void *from, size_t len)
{
    need(len <= ROOM - to->len, "a message is too long");
    memcpy(to->at + to->len, from, len);
    to->len += len;
}

static void put_byte(struct bytes *to, unsigned value)
{
    uint8_t byte = (uint8_t)value;

    put(to, &byte, 1);
}

static bool same(const struct bytes *a, const struct bytes *b)
{
    return a->len == b->len && memcmp(a->at, b->at, a->len) == 0;
}

static void print_bytes(const char *label, const struct bytes *value)
{
    printf("%s:%s", label, value->len == 0 ? "" : " ");
    for (size_t i = 0; i < value->len; i++)
        printf("%02x", value->at[i]);
    printf("\n");
}

/* ---- AES and CMAC ---- */

/* AES over whole blocks: CBC with an IV, ECB without one. */
static void aes(const struct session *s, const uint8_t *iv, bool encrypt,
                const uint8_t *in, size_t len, uint8_t *out)
{
    const EVP_CIPHER *cipher;
    EVP_CIPHER_CTX *ctx = EVP_CIPHER_CTX_new();
    int got = 0, rest = 0;

    if (s->key_len == 16)
        cipher = iv ? EVP_aes_128_cbc() : EVP_aes_128_ecb();
    else
        cipher = iv ? EVP_aes_256_cbc() : EVP_aes_256_ecb();
    need(ctx && EVP_CipherInit_ex(ctx, cipher, NULL, s->enc, iv, encrypt)
             && EVP_CIPHER_CTX_set_padding(ctx, 0)
             && EVP_CipherUpdate(ctx, out, &got, in, (int)len)
             && EVP_CipherFinal_ex(ctx, out + got, &rest)
             && (size_t)(got + rest) == len,
         "AES failed");
    EVP_CIPHER_CTX_free(ctx);
}

/* CBC under SK_ENC.  The IV is the encrypted counter, whose first byte is
 * '80' for a response (4.2.2). */
static void cbc(const struct session *s, enum direction way, bool encrypt,
                const uint8_t *in, size_t len, uint8_t *out)
{
    uint8_t counter[BLOCK] = {0}, iv[BLOCK];

    for (int i = 0; i < 4; i++)
        counter[BLOCK - 1 - i] = (uint8_t)(s->count >> (8 * i));
    if (way == RESPONSE)
        counter[0] = 0x80;
    aes(s, NULL, true, counter, BLOCK, iv);
    aes(s, iv, encrypt, in, len, out);
}

static void cmac(const struct session *s, const uint8_t *key,
                 const struct bytes *message, uint8_t mac[BLOCK])
{
    const char *cipher = s->key_len == 16 ? "AES-128-CBC" : "AES-256-CBC";
    size_t len = 0;

    need(EVP_Q_mac(NULL, "CMAC", NULL, cipher, NULL, key, s->key_len,
                   message->at, message->len, mac, BLOCK, &len)
             && len == BLOCK,
         "CMAC failed");
}

/* The whole MAC of a command (4.2.3): chaining value, padded header and the
 * objects, which are the first `len` bytes of the field. */
static void command_mac(const struct session *s, const struct command *c,
                        const struct bytes *field, size_t len,
                        uint8_t mac[BLOCK])
{
    uint8_t header[BLOCK] = {0x0c, c->ins, c->p1, c->p2, 0x80};
    struct bytes input = {.len = 0};

    put(&input, s->command_mcv, BLOCK);
    put(&input, header, BLOCK);
    put(&input, field->at, len);
    cmac(s, s->mac, &input, mac);
}

/* The whole MAC of a response (4.2.5): chaining value and the objects. */
static void response_mac(const struct session *s, const struct bytes *field,
                         size_t len, uint8_t mac[BLOCK])
{
    struct bytes input = {.len = 0};

    put(&input, s->response_mcv, BLOCK);
    put(&input, field->at, len);
    cmac(s, s->rmac, &input, mac);
}

/* ---- objects (4.2.1) ---- */

/* Tag and length, the length in its shortest form. */
static void put_head(struct bytes *to, unsigned tag, size_t len)
{
    put_byte(to, tag);
    if (len > 255) {
        put_byte(to, 0x82);
        put_byte(to, (unsigned)(len >> 8));
    } else if (len > 127) {
        put_byte(to, 0x81);
    }
    put_byte(to, len & 0xff);
}

/* Padding, encryption and the object '87' (4.2.2); nothing without data. */
static void put_encrypted(const struct session *s, enum direction way,
                          const struct bytes *data, struct bytes *field)
{
    struct bytes padded = *data;
    uint8_t text[ROOM];

    if (data->len == 0)
        return;
    put_byte(&padded, 0x80);
    while (padded.len % BLOCK != 0)
        put_byte(&padded, 0x00);
    cbc(s, way, true, padded.at, padded.len, text);
    put_head(field, 0x87, padded.len + 1);
    put_byte(field, 0x01);
    put(field, text, padded.len);
}

static void put_mac(struct bytes *field, const uint8_t mac[BLOCK])
{
    put_head(field, 0x8e, TAG);
    put(field, mac, TAG);
}

/* An object as read; a missing one has no value. */
struct object {
    const uint8_t *value;
    size_t len;
};

/* Reads the object at *place if it has this tag, and moves *place past it. */
static struct object read_object(const struct bytes *field, size_t *place,
                                 unsigned tag)
{
    struct object missing = {NULL, 0}, found;
    size_t at = *place, len, more;

    if (at == field->len || field->at[at] != tag)
        return missing;
    need(field->len - at >= 2, "an object has no length");
    len = field->at[at + 1];
    at += 2;
    if (len > 127) {
        more = len - 0x80;
        need((more == 1 || more == 2) && field->len - at >= more,
             "a length has a wrong form");
        len = more == 1 ? field->at[at]
                        : (size_t)field->at[at] << 8 | field->at[at + 1];
        need(len > (more == 1 ? 127 : 255), "a length isn't the shortest");
        at += more;
    }
    need(field->len - at >= len, "an object runs past the end");
    found.value = field->at + at;
    found.len = len;
    *place = at + len;
    return found;
}

/* A field taken apart: '87', then '97' or '99', then '8E' and the end. */
struct parts {
    struct object encrypted, middle, mac;
    size_t maced; /* the number of bytes before '8E' */
};

static struct parts read_field(const struct bytes *field, unsigned middle)
{
    struct parts p;
    size_t place = 0;

    p.encrypted = read_object(field, &place, 0x87);
    p.middle = read_object(field, &place, middle);
    p.maced = place;
    p.mac = read_object(field, &place, 0x8e);
    need(place == field->len, "an object is out of place");
    need(p.mac.value && p.mac.len == TAG, "the MAC is missing or cut");
    return p;
}

/* Decrypts the value of '87' and takes the padding off (4.2.2). */
static void decrypt(const struct session *s, enum direction way,
                    struct object encrypted, struct bytes *data)
{
    size_t len, end;

    data->len = 0;
    if (!encrypted.value)
        return;
    need(encrypted.len > BLOCK && encrypted.len % BLOCK == 1
             && encrypted.len <= ROOM && encrypted.value[0] == 0x01,
         "the encrypted object is badly formed");
    len = encrypted.len - 1;
    cbc(s, way, false, encrypted.value + 1, len, data->at);
    end = len;
    while (end > len - BLOCK && data->at[end - 1] == 0)
        end--;
    need(end > len - BLOCK && end > 1 && data->at[end - 1] == 0x80,
         "the padding is wrong");
    data->len = end - 1;
}

/* ---- wrapping and unwrapping ---- */

static void wrap_command(struct session *host, const struct command *c,
                         struct bytes *field)
{
    uint8_t mac[BLOCK];

    host->count++;
    field->len = 0;
    put_encrypted(host, COMMAND, &c->data, field);
    if (c->le) {
        put_head(field, 0x97, 1);
        put_byte(field, 0x00);
    }
    command_mac(host, c, field, field->len, mac);
    put_mac(field, mac);
    memcpy(host->command_mcv, mac, BLOCK);
}

/* The header is in *c already; its Le and data are filled in. */
static void unwrap_command(struct session *card, const struct bytes *field,
                           struct command *c)
{
    struct parts p = read_field(field, 0x97);
    uint8_t mac[BLOCK];

    c->le = p.middle.value != NULL;
    need(!c->le || (p.middle.len == 1 && p.middle.value[0] == 0),
         "the Le object is badly formed");
    command_mac(card, c, field, p.maced, mac);
    need(memcmp(mac, p.mac.value, TAG) == 0, "the command's MAC is wrong");
    card->count++;
    memcpy(card->command_mcv, mac, BLOCK);
    decrypt(card, COMMAND, p.encrypted, &c->data);
}

static void wrap_response(struct session *card, const struct response *r,
                          struct bytes *field)
{
    uint8_t mac[BLOCK];

    field->len = 0;
    put_encrypted(card, RESPONSE, &r->data, field);
    put_head(field, 0x99, 2);
    put_byte(field, r->sw1);
    put_byte(field, r->sw2);
    response_mac(card, field, field->len, mac);
    put_mac(field, mac);
    memcpy(card->response_mcv, mac, BLOCK);
}

/* The trailing status is in *r already; the object '99' must agree. */
static void unwrap_response(struct session *host, const struct bytes *field,
                            struct response *r)
{
    struct parts p = read_field(field, 0x99);
    uint8_t mac[BLOCK];

    need(p.middle.value && p.middle.len == 2, "the status object is missing");
    need(p.middle.value[0] == r->sw1 && p.middle.value[1] == r->sw2,
         "the two statuses differ");
    response_mac(host, field, p.maced, mac);
    need(memcmp(mac, p.mac.value, TAG) == 0, "the response's MAC is wrong");
    memcpy(host->response_mcv, mac, BLOCK);
    decrypt(host, RESPONSE, p.encrypted, &r->data);
}

/* ---- the wire (4.2.4, 4.2.6) ---- */

/* A field of at most 255 bytes goes in one APDU. */
static void make_apdu(const struct command *c, const struct bytes *field,
                      struct bytes *apdu)
{
    uint8_t header[4] = {0x0c, c->ins, c->p1, c->p2};

    need(field->len >= 1 && field->len <= 255, "the field needs chaining");
    apdu->len = 0;
    put(apdu, header, 4);
    put_byte(apdu, (unsigned)field->len);
    put(apdu, field->at, field->len);
    put_byte(apdu, 0x00);
}

static void take_apdu(const struct bytes *apdu, struct command *c,
                      struct bytes *field)
{
    need(apdu->len >= 7 && apdu->at[0] == 0x0c
             && apdu->at[4] == apdu->len - 6 && apdu->at[apdu->len - 1] == 0,
         "the command APDU is badly formed");
    c->ins = apdu->at[1];
    c->p1 = apdu->at[2];
    c->p2 = apdu->at[3];
    field->len = 0;
    put(field, apdu->at + 5, apdu->len - 6);
}

/* The card hands out the next piece, of at most `asked` bytes (0: 256). */
static void give_piece(const struct bytes *field, size_t *place, uint8_t asked,
                       const struct response *r, struct bytes *apdu)
{
    size_t most = asked == 0 ? 256 : asked;
    size_t left = field->len - *place;
    size_t len = left < most ? left : most;

    need(len > 0, "no bytes are left to give");
    apdu->len = 0;
    put(apdu, field->at + *place, len);
    *place += len;
    left -= len;
    put_byte(apdu, left == 0 ? r->sw1 : 0x61);
    put_byte(apdu, left == 0 ? r->sw2 : left > 255 ? 0x00 : (unsigned)left);
}

/* Carries a response field over the line: the host asks with GET RESPONSE as
 * long as the status is 61 xx, and joins the pieces. */
static void carry_response(const struct bytes *sent, const struct response *r,
                           struct bytes *joined, struct response *got)
{
    struct bytes apdu = {.len = 0};
    uint8_t ask[5] = {0x00, 0xc0, 0x00, 0x00, 0x00};
    size_t place = 0;

    joined->len = 0;
    for (;;) {
        give_piece(sent, &place, ask[4], r, &apdu);
        print_bytes("response APDU", &apdu);
        put(joined, apdu.at, apdu.len - 2);
        got->sw1 = apdu.at[apdu.len - 2];
        got->sw2 = apdu.at[apdu.len - 1];
        if (got->sw1 != 0x61)
            return;
        ask[4] = got->sw2;
        apdu.len = 0;
        put(&apdu, ask, 5);
        print_bytes("command APDU", &apdu);
    }
}

/* ---- the exchange ---- */

static void send_command(struct session *host, struct session *card,
                         const struct command *c)
{
    struct bytes field, apdu, arrived;
    struct command got = {.name = c->name};

    printf("command: %s\n", c->name);
    wrap_command(host, c, &field);
    print_bytes("command field", &field);
    make_apdu(c, &field, &apdu);
    print_bytes("command APDU", &apdu);
    take_apdu(&apdu, &got, &arrived);
    unwrap_command(card, &arrived, &got);
    need(got.ins == c->ins && got.p1 == c->p1 && got.p2 == c->p2
             && got.le == c->le && same(&got.data, &c->data),
         "the card got another command");
    print_bytes("card data", &got.data);
    printf("card Le: %s\n", got.le ? "yes" : "no");
}

static void send_response(struct session *host, struct session *card,
                          const struct response *r)
{
    struct bytes field, arrived;
    struct response got;

    wrap_response(card, r, &field);
    print_bytes("response field", &field);
    carry_response(&field, r, &arrived, &got);
    unwrap_response(host, &arrived, &got);
    need(got.sw1 == r->sw1 && got.sw2 == r->sw2 && same(&got.data, &r->data),
         "the host got another response");
    print_bytes("host data", &got.data);
    printf("host status: %02x%02x\n", got.sw1, got.sw2);
}

static void open_session(struct session *s, size_t key_len)
{
    memset(s, 0, sizeof *s);
    s->key_len = key_len;
    for (size_t i = 0; i < key_len; i++) {
        s->enc[i] = (uint8_t)(0x00 + i);
        s->mac[i] = (uint8_t)(0x40 + i);
        s->rmac[i] = (uint8_t)(0x80 + i);
    }
}

/* The object that GET DATA is answered with: '53' and 1,416 bytes. */
static void make_certificate(struct bytes *data)
{
    data->len = 0;
    put_head(data, 0x53, 1416);
    for (unsigned j = 0; j < 1416; j++)
        put_byte(data, (7 * j + 3) % 256);
}

static void run(const char *suite, size_t key_len)
{
    struct session host, card;
    struct command pairing = {"VERIFY", 0x20, 0x00, 0x98, false, {0, {0}}};
    struct command get = {"GET DATA", 0xcb, 0x3f, 0xff, true, {0, {0}}};
    struct command retries = {"VERIFY", 0x20, 0x00, 0x80, false, {0, {0}}};
    struct response done = {0x90, 0x00, {0, {0}}};
    struct response certificate = {0x90, 0x00, {0, {0}}};
    struct response three_left = {0x63, 0xc3, {0, {0}}};

    put(&pairing.data, "65135275", 8);
    put(&get.data, "\x5c\x03\x5f\xc1\x05", 5);
    make_certificate(&certificate.data);
    open_session(&host, key_len);
    open_session(&card, key_len);
    printf("suite: %s\n", suite);
    send_command(&host, &card, &pairing);
    send_response(&host, &card, &done);
    send_command(&host, &card, &get);
    send_response(&host, &card, &certificate);
    send_command(&host, &card, &retries);
    send_response(&host, &card, &three_left);
}

int main(void)
{
    run("CS2", 16);
    run("CS7", 32);
    if (fflush(stdout) != 0)
        fail("the output can't be written");
    return 0;
}
