/* example.c - a host reads a PIV card under secure messaging, through pivsm.h alone, and says what it would bill.
 *
 * Between two commands the host keeps the session's bytes and nothing else. A read is verified, and billable, where
 * pivsm_unwrap_response gave PIVSM_OK and 90 00 as the authentic status word, and nowhere else.
 *
 * To make a host of it, replace card_transmit by your reader's call, and the keys by those that were agreed with the
 * card. card.c is the card's end, for a simulator.
 */
#include "card.h"
#include "pivsm.h"

#include <stdio.h>
#include <stdlib.h>

struct host {
    uint8_t session[PIVSM_SESSION_SIZE];
    size_t session_len;
};

struct command {
    const char *name;
    uint8_t ins, p1, p2;
    bool le;
    const uint8_t *data;
    size_t data_len;
};

struct response {
    uint8_t data[PIVSM_RESPONSE_CIPHERTEXT_MAX]; /* an unwrap asks for room for the ciphertext */
    size_t data_len;
    uint16_t sw;
};

/* ---- the transcript ---- */

/* The first bytes and, of longer strings, the last two, which are a response's status word. */
static void print_bytes(const char *label, const uint8_t *bytes, size_t len)
{
    printf("    %s", label);
    for (size_t i = 0; i < len; i++) {
        if (len <= 12 || i < 8 || i >= len - 2)
            printf(" %02X", bytes[i]);
        else if (i == 8)
            printf(" ...");
    }
    printf(len > 12 ? " (%zu bytes)\n" : "\n", len);
}

static const char *result_name(uint32_t result)
{
    static const char *const names[] = {
        "PIVSM_OK",
        "PIVSM_SESSION_CLOSED",
        "PIVSM_OUT_OF_TURN",
        "PIVSM_NOT_PERMITTED",
        "PIVSM_TOO_LONG",
        "PIVSM_COMMAND_LIMIT_REACHED",
        "PIVSM_BUFFER_TOO_SMALL",
        "PIVSM_MALFORMED",
        "PIVSM_MISSING_OBJECT",
        "PIVSM_BAD_MAC",
        "PIVSM_BAD_PADDING",
        "PIVSM_UNKNOWN_SUITE",
        "PIVSM_BAD_KEY_LENGTH",
        "PIVSM_UNPROTECTED",
        "PIVSM_BROKEN_CHAIN",
        "PIVSM_FRAGMENT_TOO_LONG",
        "PIVSM_BAD_SESSION",
    };

    return result < sizeof names / sizeof names[0] ? names[result] : "no such result";
}

/* ---- the host ---- */

static size_t transmit(struct card *card, const uint8_t *apdu, size_t apdu_len,
                       uint8_t answer[PIVSM_RESPONSE_APDU_MAX])
{
    size_t answer_len;

    print_bytes("host >", apdu, apdu_len);
    answer_len = card_transmit(card, apdu, apdu_len, answer);
    print_bytes("card <", answer, answer_len);
    return answer_len;
}

/* Send a field in as many APDUs as it takes. The answer to the last is the start of the response; a card that does
 * not answer 90 00 to an earlier one has given up, and its answer is then the response. */
static uint32_t send_field(struct card *card, const struct command *c, const uint8_t *field, size_t field_len,
                           uint8_t answer[PIVSM_RESPONSE_APDU_MAX], size_t *answer_len)
{
    uint8_t apdu[PIVSM_COMMAND_APDU_MAX];
    size_t apdu_len, number = 0;
    bool more;

    do {
        uint32_t result = pivsm_fragment_command(c->ins, c->p1, c->p2, field, field_len, 0, number++, apdu,
                                                 sizeof apdu, &apdu_len);
        if (result != PIVSM_OK)
            return result;
        *answer_len = transmit(card, apdu, apdu_len, answer);
        more = apdu[0] == 0x1C && *answer_len == 2 && answer[0] == 0x90 && answer[1] == 0x00;
    } while (more);
    return PIVSM_OK;
}

/* Put the response together, asking with GET RESPONSE for as long as the status word is 61 xx. */
static uint32_t receive_field(struct card *card, uint8_t answer[PIVSM_RESPONSE_APDU_MAX], size_t answer_len,
                              uint8_t field[PIVSM_RESPONSE_FIELD_MAX], size_t *field_len, uint16_t *sw)
{
    uint8_t apdu[PIVSM_GET_RESPONSE_SIZE];
    uint64_t chain = 0;
    size_t apdu_len;
    uint32_t result;

    for (;;) {
        result = pivsm_reassemble_response(&chain, answer, answer_len, field, PIVSM_RESPONSE_FIELD_MAX, field_len,
                                           sw);
        if (result != PIVSM_OK || *sw >> 8 != 0x61)
            return result;
        result = pivsm_get_response((uint8_t)*sw, apdu, sizeof apdu, &apdu_len);
        if (result != PIVSM_OK)
            return result;
        answer_len = transmit(card, apdu, apdu_len, answer);
    }
}

/* One command and its response. PIVSM_OK says that the card wrapped this response in answer to this command. At every
 * other result of a command that was sent, the session is closed or still waits: open a new one. */
static uint32_t exchange(struct host *host, struct card *card, const struct command *c, struct response *r)
{
    uint8_t command[PIVSM_COMMAND_FIELD_MAX], response[PIVSM_RESPONSE_FIELD_MAX], answer[PIVSM_RESPONSE_APDU_MAX];
    size_t command_len, response_len, answer_len;
    uint16_t sw;
    uint32_t result;

    r->data_len = 0;
    r->sw = 0;
    result = pivsm_wrap_command(host->session, sizeof host->session, &host->session_len, c->ins, c->p1, c->p2, c->le,
                                c->data, c->data_len, command, sizeof command, &command_len);
    if (result == PIVSM_OK)
        result = send_field(card, c, command, command_len, answer, &answer_len);
    if (result == PIVSM_OK)
        result = receive_field(card, answer, answer_len, response, &response_len, &sw);
    if (result != PIVSM_OK)
        return result;
    return pivsm_unwrap_response(host->session, sizeof host->session, &host->session_len, sw, response, response_len,
                                 r->data, sizeof r->data, &r->data_len, &r->sw);
}

/* Run a command and tell what came of it. */
static uint32_t run(struct host *host, struct card *card, const struct command *c, struct response *r)
{
    uint32_t result;

    printf("\n%s, %zu bytes of data\n", c->name, c->data_len);
    result = exchange(host, card, c, r);
    printf("  %s", result_name(result));
    if (result == PIVSM_OK)
        printf(": %zu bytes of data, status %04X, both verified\n", r->data_len, r->sw);
    else if (result == PIVSM_UNPROTECTED)
        printf(": status %04X, which nothing vouches for\n", r->sw);
    else
        printf("\n");
    return result;
}

static const char *reason(uint32_t result, uint16_t sw)
{
    if (result == PIVSM_OK)
        return sw == 0x9000 ? "the card gave this data in answer to this command"
                            : "the card's own answer, but it did not give the object";
    if (result == PIVSM_UNPROTECTED)
        return "the answer came without secure messaging; the session still waits for the card's";
    if (result == PIVSM_BAD_MAC)
        return "this is not the card's answer to this command; the session is now closed";
    if (result == PIVSM_SESSION_CLOSED)
        return "nothing was sent; open a new session";
    return "no answer was verified";
}

/* Read a data object, and say whether it is to be billed: 1 read or none. */
static int read_object(struct host *host, struct card *card, const uint8_t tag_list[5])
{
    const struct command get_data = {"GET DATA", 0xCB, 0x3F, 0xFF, true, tag_list, 5};
    struct response r;
    uint32_t result = run(host, card, &get_data, &r);
    bool billable = result == PIVSM_OK && r.sw == 0x9000;

    if (billable)
        print_bytes("data  ", r.data, r.data_len);
    printf("  %s: %s\n", billable ? "billable" : "not billable", reason(result, r.sw));
    return billable ? 1 : 0;
}

/* ---- two sessions ---- */

static void must(bool holds, const char *what)
{
    if (holds)
        return;
    fprintf(stderr, "example: %s\n", what);
    exit(1);
}

static void open_both(struct host *host, struct card *card, uint32_t suite)
{
    struct session_keys keys = {suite, suite == PIVSM_CS2 ? 16 : 32, {0}, {0}, {0}};

    /* For the example alone: each session needs keys of its own, from the key agreement. */
    for (size_t i = 0; i < keys.len; i++) {
        keys.enc[i] = (uint8_t)(0x10 * suite + i);
        keys.mac[i] = (uint8_t)(0x40 + 0x10 * suite + i);
        keys.rmac[i] = (uint8_t)(0x80 + 0x10 * suite + i);
    }
    must(card_insert(card, &keys) == PIVSM_OK, "the card's session was not opened");
    must(pivsm_open_host(keys.suite, keys.enc, keys.len, keys.mac, keys.len, keys.rmac, keys.len, host->session,
                         sizeof host->session, &host->session_len) == PIVSM_OK,
         "the host's session was not opened");
    printf("A session with suite CS%u is open.\n", (unsigned)suite);
}

static void close_host(struct host *host)
{
    must(pivsm_close(host->session, sizeof host->session, &host->session_len) == PIVSM_OK, "not closed");
    printf("\nThe session is closed.\n");
}

static const uint8_t certificate[5] = {0x5C, 0x03, 0x5F, 0xC1, 0x05};
static const uint8_t fingerprints[5] = {0x5C, 0x03, 0x5F, 0xC1, 0x03};

static void verify_pin(struct host *host, struct card *card)
{
    static const uint8_t pin[8] = {'1', '2', '3', '4', '5', '6', 0xFF, 0xFF};
    static const struct command verify = {"VERIFY", 0x20, 0x00, 0x80, false, pin, sizeof pin};
    struct response r;

    must(run(host, card, &verify, &r) == PIVSM_OK && r.sw == 0x9000, "the PIN was not accepted");
}

/* A challenge of 256 bytes: the field is longer than an APDU, so the command goes out in two. */
static void sign(struct host *host, struct card *card)
{
    uint8_t data[10 + 256] = {0x7C, 0x82, 0x01, 0x06, 0x82, 0x00, 0x81, 0x82, 0x01, 0x00};
    const struct command authenticate = {"GENERAL AUTHENTICATE", 0x87, 0x07, 0x9A, true, data, sizeof data};
    struct response r;

    for (size_t i = 0; i < 256; i++)
        data[10 + i] = (uint8_t)i;
    must(run(host, card, &authenticate, &r) == PIVSM_OK && r.sw == 0x9000, "no signature");
    print_bytes("data  ", r.data, r.data_len);
}

int main(void)
{
    struct card card;
    struct host host;
    int billed = 0;

    open_both(&host, &card, PIVSM_CS2);
    verify_pin(&host, &card);
    sign(&host, &card);
    billed += read_object(&host, &card, fingerprints);
    billed += read_object(&host, &card, certificate);
    printf("\nFrom here on the line gives the host the last response again.\n");
    card.line = LINE_REPLAYS;
    billed += read_object(&host, &card, certificate);
    billed += read_object(&host, &card, certificate);

    printf("\n");
    open_both(&host, &card, PIVSM_CS7);
    billed += read_object(&host, &card, certificate);
    printf("\nFrom here on the answers come without secure messaging.\n");
    card.line = LINE_UNPROTECTED;
    billed += read_object(&host, &card, certificate);
    close_host(&host);

    printf("\nVerified reads to be billed: %d\n", billed);
    must(billed == 2, "the number of reads is not that of the honest ones");
    return fflush(stdout) == 0 ? 0 : 1;
}
