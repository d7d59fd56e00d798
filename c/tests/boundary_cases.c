/* boundary_cases.c - either side of each limit of the calls in pivsm.h, a line for each case: the call, the case, its
 * result, the length that it gives (at PIVSM_UNPROTECTED the status word), and what became of the caller's buffer.
 * boundary_cases.md derives the lines by hand.
 */
#include "pivsm.h"
#include "reference.h" /* forges fields with a right MAC and wrong padding */

#include <stdio.h>
#include <stdlib.h>
#include <string.h>

enum { ROOM = 16500, P1 = 0x3f, P2 = 0xff, OK_SW = 0x9000 };
enum { VERIFY = 0x20, GENERAL_AUTHENTICATE = 0x87, GET_DATA = 0xcb };

struct session {
    uint8_t bytes[PIVSM_SESSION_SIZE];
    size_t len;
};

/* The buffer that a call gets is the start of `out`, so bytes that it writes behind it show too. */
static uint8_t out[ROOM], before[ROOM];

static const uint8_t data[5] = {0x5c, 0x03, 0x5f, 0xc1, 0x05};
static const uint8_t zeros[ROOM];

/* ---- a line ---- */

static void begin(const char *call, const char *name)
{
    printf("%-14s%-42s", call, name);
    memset(out, 0xa5, sizeof out);
    memcpy(before, out, sizeof out);
}

static void end(uint32_t result, size_t number)
{
    size_t writable = result == PIVSM_OK ? number : 0;
    const char *buffer = "changed";

    if (memcmp(out, before, ROOM) == 0)
        buffer = "unchanged";
    else if (memcmp(out + writable, before + writable, ROOM - writable) != 0)
        buffer = "changed past the length";
    printf("%2u  %5zu  %s\n", (unsigned)result, number, buffer);
}

/* What a case needs and is not itself about. */
static void must(bool holds, const char *what)
{
    if (holds)
        return;
    fprintf(stderr, "boundary_cases: %s\n", what);
    exit(1);
}

/* ---- the calls, each as a line; commands are GET DATA with Le unless another is given ---- */

static void wraps(const char *name, struct session *s, uint8_t ins, bool le, const uint8_t *text, size_t len,
                  size_t room)
{
    size_t field_len;
    uint32_t result;

    begin("host wraps", name);
    result = pivsm_wrap_command(s->bytes, sizeof s->bytes, &s->len, ins, P1, P2, le, text, len, out, room, &field_len);
    end(result, field_len);
}

static void host_wraps(const char *name, struct session *s, const uint8_t *text, size_t len, size_t room)
{
    wraps(name, s, GET_DATA, true, text, len, room);
}

static void card_unwraps(const char *name, struct session *s, const uint8_t *field, size_t len, size_t room)
{
    size_t data_len;
    uint32_t result;
    bool le = false;

    begin("card unwraps", name);
    result = pivsm_unwrap_command(s->bytes, sizeof s->bytes, &s->len, GET_DATA, P1, P2, field, len, out, room,
                                  &data_len, &le);
    end(result, data_len);
}

static void card_wraps(const char *name, struct session *s, const uint8_t *text, size_t len, size_t room)
{
    size_t field_len;
    uint32_t result;

    begin("card wraps", name);
    result = pivsm_wrap_response(s->bytes, sizeof s->bytes, &s->len, OK_SW, text, len, out, room, &field_len);
    end(result, field_len);
}

static void unwraps(const char *name, struct session *s, uint16_t sw, const uint8_t *field, size_t len, size_t room)
{
    size_t data_len;
    uint32_t result;
    uint16_t status;

    begin("host unwraps", name);
    result = pivsm_unwrap_response(s->bytes, sizeof s->bytes, &s->len, sw, field, len, out, room, &data_len, &status);
    end(result, result == PIVSM_UNPROTECTED ? status : data_len);
}

static void host_unwraps(const char *name, struct session *s, const uint8_t *field, size_t len, size_t room)
{
    unwraps(name, s, OK_SW, field, len, room);
}

/* The session is the buffer. */
static void closes(const char *name, const struct session *s, size_t room, size_t len)
{
    uint32_t result;

    begin("closes", name);
    memcpy(out, s->bytes, sizeof s->bytes);
    memcpy(before, out, sizeof out);
    result = pivsm_close(out, room, &len);
    end(result, len);
}

static void opens(const char *name, uint32_t suite, size_t key_len, size_t room)
{
    size_t len;
    uint32_t result;

    begin("opens", name);
    result = pivsm_open_host(suite, zeros, key_len, zeros, key_len, zeros, key_len, out, room, &len);
    end(result, len);
}

/* ---- a host and a card with the same keys, of suite CS2, and their first messages ---- */

static struct session opened(bool card)
{
    uint8_t keys[3][16];
    struct session s;

    for (int i = 0; i < 16; i++) {
        keys[0][i] = (uint8_t)i;
        keys[1][i] = (uint8_t)(0x40 + i);
        keys[2][i] = (uint8_t)(0x80 + i);
    }
    must((card ? pivsm_open_card : pivsm_open_host)(PIVSM_CS2, keys[0], 16, keys[1], 16, keys[2], 16, s.bytes,
                                                    sizeof s.bytes, &s.len) == PIVSM_OK,
         "an opening");
    return s;
}

/* The host that has wrapped that text, and its field. */
static struct session waiting_host(const uint8_t *text, size_t len, uint8_t *field)
{
    struct session host = opened(false);
    size_t field_len;

    must(pivsm_wrap_command(host.bytes, sizeof host.bytes, &host.len, GET_DATA, P1, P2, true, text, len, field,
                            PIVSM_COMMAND_FIELD_MAX, &field_len) == PIVSM_OK,
         "a command");
    return host;
}

/* The card that has accepted the first command, of the five bytes. */
static struct session busy_card(void)
{
    uint8_t field[PIVSM_COMMAND_FIELD_MAX], room[16];
    struct session card = opened(true);
    size_t len;
    bool le = false;

    waiting_host(data, sizeof data, field);
    must(pivsm_unwrap_command(card.bytes, sizeof card.bytes, &card.len, GET_DATA, P1, P2, field, 32, room, sizeof room,
                              &len, &le) == PIVSM_OK,
         "the card's command");
    return card;
}

/* The field of the first response, with that text. */
static size_t response_field(const uint8_t *text, size_t len, uint8_t *field)
{
    struct session card = busy_card();
    size_t field_len;

    must(pivsm_wrap_response(card.bytes, sizeof card.bytes, &card.len, OK_SW, text, len, field,
                             PIVSM_RESPONSE_FIELD_MAX, &field_len) == PIVSM_OK,
         "a response");
    return field_len;
}

static struct session fresh_waiting_host(void)
{
    uint8_t field[PIVSM_COMMAND_FIELD_MAX];

    return waiting_host(data, sizeof data, field);
}

/* ---- the longest data and the longest field of each direction, and one byte more ---- */

static void command_lengths(void)
{
    static uint8_t text[2048], field[2067];
    struct session host = opened(false), card = opened(true);

    memset(text, 0x11, sizeof text);
    host_wraps("2,047 bytes of data", &host, text, 2047, 2100);
    host = opened(false);
    host_wraps("2,048 bytes of data", &host, text, 2048, 2100);
    waiting_host(text, 2047, field);
    card_unwraps("a field of 2,066 bytes", &card, field, 2066, 2100);
    card = opened(true);
    card_unwraps("a field of 2,067 bytes", &card, field, 2067, 2100);
}

static void response_lengths(void)
{
    static uint8_t text[16384], field[16404];
    struct session host = fresh_waiting_host(), card = busy_card();

    memset(text, 0x11, sizeof text);
    card_wraps("16,383 bytes of data", &card, text, 16383, ROOM);
    card = busy_card();
    card_wraps("16,384 bytes of data", &card, text, 16384, ROOM);
    response_field(text, 16383, field);
    host_unwraps("a field of 16,403 bytes", &host, field, 16403, ROOM);
    host = fresh_waiting_host();
    host_unwraps("a field of 16,404 bytes", &host, field, 16404, ROOM);
}

/* ---- opening, and a session's bytes ---- */

/* A ready session with that count, and chaining values of no meaning. */
static struct session counted(bool card, uint32_t count)
{
    struct session s = opened(card);

    s.bytes[7] = (uint8_t)(count >> 16);
    s.bytes[8] = (uint8_t)(count >> 8);
    s.bytes[9] = (uint8_t)count;
    memset(s.bytes + 106, 'C', 16);
    memset(s.bytes + 122, 'R', 16);
    return s;
}

static void sessions(void)
{
    struct session s = counted(false, 65535);

    opens("suite 2, keys of 16 bytes, room 137", 2, 16, 137);
    opens("suite 2, keys of 16 bytes, room 138", 2, 16, 138);
    opens("suite 2, keys of 32 bytes", 2, 32, 138);
    opens("suite 7, keys of 32 bytes", 7, 32, 138);
    opens("suite 7, keys of 31 bytes", 7, 31, 138);
    opens("suite 3, keys of 16 bytes", 3, 16, 138);
    closes("a saved session, count 65,535", &s, 138, 138);
    closes("the same, room 137", &s, 137, 138);
    closes("the same, length 137", &s, 138, 137);
    closes("the same, length 139", &s, 139, 139);
    s = counted(false, 65536);
    closes("a saved session, count 65,536", &s, 138, 138);
}

/* The last command of a session, and one more. */
static void command_limit(void)
{
    uint8_t field[40];
    size_t len;
    struct session host = counted(false, 65534), card = counted(true, 65534);

    host_wraps("after 65,534 commands", &host, data, sizeof data, 40);
    host = counted(false, 65535);
    host_wraps("after 65,535 commands", &host, data, sizeof data, 40);
    host = counted(false, 65534);
    must(pivsm_wrap_command(host.bytes, sizeof host.bytes, &host.len, GET_DATA, P1, P2, true, data, sizeof data, field,
                            sizeof field, &len) == PIVSM_OK,
         "command 65,535");
    card_unwraps("after 65,534 commands", &card, field, len, 40);
    card = counted(true, 65535);
    card_unwraps("after 65,535 commands", &card, field, len, 40);
}

/* ---- a buffer one byte short, and one of just the size needed ---- */

static void rooms(void)
{
    uint8_t command[PIVSM_COMMAND_FIELD_MAX], response[PIVSM_RESPONSE_FIELD_MAX];
    struct session host = opened(false), card = opened(true);

    host_wraps("5 bytes of data, room 31", &host, data, sizeof data, 31);
    host_wraps("5 bytes of data, room 32", &host, data, sizeof data, 32);
    host = waiting_host(data, sizeof data, command);
    card_unwraps("16 bytes of encrypted data, room 15", &card, command, 32, 15);
    card_unwraps("16 bytes of encrypted data, room 16", &card, command, 32, 16);
    card_wraps("5 bytes of data, room 32", &card, data, sizeof data, 32);
    card_wraps("5 bytes of data, room 33", &card, data, sizeof data, 33);
    response_field(data, sizeof data, response);
    host_unwraps("16 bytes of encrypted data, room 15", &host, response, 33, 15);
    host_unwraps("16 bytes of encrypted data, room 16", &host, response, 33, 16);
}

/* ---- messages that come again, or not at all: each call begins where the one before it ended ---- */

static void repeated_responses(void)
{
    uint8_t field[PIVSM_RESPONSE_FIELD_MAX];
    size_t len = response_field(data, sizeof data, field);
    struct session host = fresh_waiting_host();

    unwraps("no bytes, status 69 82", &host, 0x6982, NULL, 0, 40);
    host_unwraps("then the first response", &host, field, len, 40);
    host_unwraps("then the same again", &host, field, len, 40);
    host_wraps("then the second command", &host, data, sizeof data, 40);
    host_unwraps("then the first response, replayed", &host, field, len, 40);
    host_wraps("then another command", &host, data, sizeof data, 40);
}

static void repeated_commands(void)
{
    uint8_t field[PIVSM_COMMAND_FIELD_MAX];
    struct session card = opened(true);

    waiting_host(data, sizeof data, field);
    card_unwraps("the first command", &card, field, 32, 40);
    card_unwraps("then the same again", &card, field, 32, 40);
    card_wraps("then the first response", &card, data, sizeof data, 40);
    card_unwraps("then the first command, replayed", &card, field, 32, 40);
    card_wraps("then another response", &card, data, sizeof data, 40);
}

/* ---- texts with right and with wrong padding, in fields with a right MAC ---- */

/* The field, for that receiver, of data bytes 'D', a byte of padding and zeros, `len` in all. */
static size_t forge(const struct session *receiver, bool response, size_t data_len, uint8_t padding, size_t len,
                    uint8_t *field)
{
    static const uint8_t le[] = {0x97, 0x01, 0x00}, status[] = {0x99, 0x02, 0x90, 0x00};
    uint8_t text[32] = {0}, mac[16];
    size_t objects = 3 + len;

    memset(text, 'D', data_len);
    text[data_len] = padding;
    field[0] = 0x87;
    field[1] = (uint8_t)(len + 1);
    field[2] = 0x01;
    reference_forge_ciphertext(receiver->bytes, response, text, len, field + 3);
    memcpy(field + objects, response ? status : le, response ? sizeof status : sizeof le);
    objects += response ? sizeof status : sizeof le;
    reference_forge_mac(receiver->bytes, response, GET_DATA, P1, P2, field, objects, mac);
    field[objects] = 0x8e;
    field[objects + 1] = 8;
    memcpy(field + objects + 2, mac, 8);
    return objects + 10;
}

static void padded_response(const char *name, size_t data_len, uint8_t padding, size_t len)
{
    struct session host = fresh_waiting_host();
    uint8_t field[64];

    host_unwraps(name, &host, field, forge(&host, true, data_len, padding, len, field), 40);
    if (padding == 0)
        host_wraps("then another command", &host, data, sizeof data, 40);
}

static void padding(void)
{
    struct session card = opened(true);
    uint8_t field[PIVSM_COMMAND_FIELD_MAX];

    padded_response("1 byte, '80', 14 zeros", 1, 0x80, 16);
    padded_response("'80', 15 zeros", 0, 0x80, 16);
    padded_response("16 bytes, '80', 15 zeros", 16, 0x80, 32);
    padded_response("15 bytes, '80', 16 zeros", 15, 0x80, 32);
    padded_response("31 bytes, '80'", 31, 0x80, 32);
    padded_response("31 bytes, '81'", 31, 0x81, 32);
    padded_response("16 zeros", 0, 0x00, 16);
    card_unwraps("1 byte, '80', 14 zeros", &card, field, forge(&card, false, 1, 0x80, 16, field), 40);
    card = opened(true);
    card_unwraps("'80', 15 zeros", &card, field, forge(&card, false, 0, 0x80, 16, field), 40);
    waiting_host(data, sizeof data, field);
    card_unwraps("then the first command", &card, field, 32, 40);
}

/* ---- fields and their fragments ---- */

static void wraps_anew(const char *name, uint8_t ins, bool le, size_t len)
{
    struct session host = opened(false);

    wraps(name, &host, ins, le, zeros, len, PIVSM_COMMAND_FIELD_MAX);
}

static void field_lengths(void)
{
    struct session card = busy_card();

    wraps_anew("VERIFY of 8 bytes", VERIFY, false, 8);
    wraps_anew("GET DATA of 5 bytes", GET_DATA, true, 5);
    wraps_anew("VERIFY without data", VERIFY, false, 0);
    wraps_anew("239 bytes without Le", GENERAL_AUTHENTICATE, false, 239);
    wraps_anew("239 bytes with Le", GENERAL_AUTHENTICATE, true, 239);
    wraps_anew("2,047 bytes with Le", GENERAL_AUTHENTICATE, true, 2047);
    card_wraps("1,420 bytes of data", &card, zeros, 1420, ROOM);
}

static void fragments_command(const char *name, size_t field_len, size_t size, size_t number, size_t room)
{
    size_t apdu_len;
    uint32_t result;

    begin("fragments", name);
    result = pivsm_fragment_command(GET_DATA, P1, P2, zeros, field_len, size, number, out, room, &apdu_len);
    end(result, apdu_len);
}

static void command_fragments(void)
{
    fragments_command("command, no bytes, number 0", 0, 0, 0, 261);
    fragments_command("command, 254 bytes, number 0", 254, 0, 0, 261);
    fragments_command("command, 254 bytes, number 1", 254, 0, 1, 261);
    fragments_command("command, 255 bytes, number 0, room 260", 255, 0, 0, 260);
    fragments_command("command, 255 bytes, number 0, room 261", 255, 0, 0, 261);
    fragments_command("command, 257 bytes, number 0", 257, 0, 0, 261);
    fragments_command("command, 257 bytes, number 1", 257, 0, 1, 261);
    fragments_command("command, 257 bytes, number 2", 257, 0, 2, 261);
    fragments_command("command, 2,066 bytes, number 7", 2066, 0, 7, 261);
    fragments_command("command, 2,066 bytes, number 8", 2066, 0, 8, 261);
    fragments_command("command, 2,066 bytes, number 9", 2066, 0, 9, 261);
    fragments_command("command, 2,067 bytes, number 0", 2067, 0, 0, 261);
    fragments_command("command, 257 bytes, size 255, number 1", 257, 255, 1, 261);
    fragments_command("command, 257 bytes, size 256, number 1", 257, 256, 1, 261);
}

static void fragments_response(const char *name, uint16_t sw, size_t field_len, size_t at, size_t room)
{
    size_t apdu_len, next;
    uint32_t result;

    begin("fragments", name);
    result = pivsm_fragment_response(sw, zeros, field_len, at, 0, out, room, &apdu_len, &next);
    end(result, apdu_len);
}

static void response_fragments(void)
{
    fragments_response("response, no bytes", OK_SW, 0, 0, 258);
    fragments_response("response, 1,443 bytes, at 0, room 257", OK_SW, 1443, 0, 257);
    fragments_response("response, 1,443 bytes, at 0, room 258", OK_SW, 1443, 0, 258);
    fragments_response("response, 1,443 bytes, at 1,280", OK_SW, 1443, 1280, 258);
    fragments_response("response, 1,443 bytes, at 1,443", OK_SW, 1443, 1443, 258);
    fragments_response("response, 16,403 bytes, at 16,384", OK_SW, 16403, 16384, 258);
    fragments_response("response, 16,404 bytes, at 16,384", OK_SW, 16404, 16384, 258);
    fragments_response("response, status 60 FF", 0x60ff, 14, 0, 258);
    fragments_response("response, status 61 00", 0x6100, 14, 0, 258);
}

/* ---- reassembling: `out` holds what was reassembled ---- */

/* Reassemble all fragments of a command's field; the line is that of the last one. */
static void reassembles_command(const char *name, size_t field_len, size_t room)
{
    uint8_t apdu[PIVSM_COMMAND_APDU_MAX], ins, p1, p2;
    uint64_t chain = 0;
    size_t apdu_len, len, number = 0;
    uint32_t result;
    uint16_t sw;

    begin("reassembles", name);
    do {
        must(pivsm_fragment_command(GET_DATA, P1, P2, zeros, field_len, 0, number++, apdu, sizeof apdu, &apdu_len) ==
                 PIVSM_OK,
             "a fragment");
        memcpy(before, out, sizeof out);
        result = pivsm_reassemble_command(&chain, apdu, apdu_len, out, room, &len, &sw, &ins, &p1, &p2);
    } while (result == PIVSM_OK && sw == 0x9000);
    must(chain == 0, "the chain is not back at 0");
    end(result, len);
}

/* One APDU with `data_len` data bytes and an Le, behind `held` bytes of a GET DATA. */
static void reassembles_fragment(const char *name, uint64_t held, uint8_t cla, uint8_t ins, size_t data_len)
{
    uint8_t apdu[300] = {cla, ins, P1, P2, (uint8_t)data_len}, got[3];
    uint64_t chain = held == 0 ? 0 : held << 24 | (uint64_t)GET_DATA << 16 | P1 << 8 | P2;
    size_t len;
    uint32_t result;
    uint16_t sw;

    begin("reassembles", name);
    result = pivsm_reassemble_command(&chain, apdu, 5 + data_len + 1, out, ROOM, &len, &sw, &got[0], &got[1], &got[2]);
    end(result, len);
}

static void joined_commands(void)
{
    reassembles_command("command, 257 bytes, room 256", 257, 256);
    reassembles_command("command, 257 bytes, room 257", 257, 257);
    reassembles_command("command, 2,066 bytes", 2066, 2066);
    reassembles_fragment("command, 1 byte behind 2,065", 2065, 0x0c, GET_DATA, 1);
    reassembles_fragment("command, 1 byte behind 2,066", 2066, 0x0c, GET_DATA, 1);
    reassembles_fragment("command, 1 byte behind 2,067", 2067, 0x0c, GET_DATA, 1);
    reassembles_fragment("command, another INS behind 255", 255, 0x0c, GENERAL_AUTHENTICATE, 1);
    reassembles_fragment("command, no data", 0, 0x0c, GET_DATA, 0);
    reassembles_fragment("command, CLA 0D", 0, 0x0d, GET_DATA, 1);
}

static void reassembles_response(const char *name, uint64_t held, size_t data_len, uint16_t sw, size_t room)
{
    uint8_t apdu[300] = {0};
    uint64_t chain = held;
    size_t len;
    uint32_t result;
    uint16_t got;

    begin("reassembles", name);
    apdu[data_len] = (uint8_t)(sw >> 8);
    apdu[data_len + 1] = (uint8_t)sw;
    result = pivsm_reassemble_response(&chain, apdu, data_len + 2, out, room, &len, &got);
    end(result, len);
}

static void joined_responses(void)
{
    reassembles_response("response, 163 behind 1,280, room 1,442", 1280, 163, OK_SW, 1442);
    reassembles_response("response, 163 behind 1,280, room 1,443", 1280, 163, OK_SW, 1443);
    reassembles_response("response, 256 bytes", 0, 256, OK_SW, ROOM);
    reassembles_response("response, 257 bytes", 0, 257, OK_SW, ROOM);
    reassembles_response("response, 1 byte, status 61 00", 0, 1, 0x6100, ROOM);
    reassembles_response("response, no bytes, status 61 00", 0, 0, 0x6100, ROOM);
    reassembles_response("response, none behind 256, status 90 00", 256, 0, OK_SW, ROOM);
    reassembles_response("response, 19 bytes behind 16,384", 16384, 19, OK_SW, ROOM);
    reassembles_response("response, 20 bytes behind 16,384", 16384, 20, OK_SW, ROOM);
    reassembles_response("response, no bytes behind 16,404", 16404, 0, OK_SW, ROOM);
}

static void asks(const char *name, size_t room)
{
    size_t len;
    uint32_t result;

    begin("get response", name);
    result = pivsm_get_response(0, out, room, &len);
    end(result, len);
}

int main(void)
{
    printf("%-14s%-42s%s\n", "call", "case", "no number  buffer");
    command_lengths();
    response_lengths();
    sessions();
    command_limit();
    rooms();
    repeated_responses();
    repeated_commands();
    padding();
    field_lengths();
    command_fragments();
    response_fragments();
    joined_commands();
    joined_responses();
    asks("room 4", 4);
    asks("room 5", 5);
    return fflush(stdout) == 0 ? 0 : 1;
}
