/* exchange_calls.c - the example exchange of SP 800-73-5 Part 2 (draft), page 49, through pivsm.h alone: a host and a
 * card send each other three commands and responses, first with suite CS2 and then with CS7. It prints what exchange.c
 * prints, which shares no code with the library.
 */
#include "pivsm.h"

#include <stdio.h>
#include <stdlib.h>
#include <string.h>

struct end {
    uint8_t session[PIVSM_SESSION_SIZE];
    size_t session_len;
};

struct command {
    const char *name;
    uint8_t ins, p1, p2;
    bool le;
    const char *data;
    size_t data_len;
};

/* A field where it was reassembled, and the header or the status word that came with it. */
struct carried {
    uint8_t field[PIVSM_RESPONSE_FIELD_MAX];
    size_t field_len;
    uint8_t ins, p1, p2;
    uint16_t sw;
};

static void must(uint32_t result, const char *call)
{
    if (result == PIVSM_OK)
        return;
    fprintf(stderr, "exchange_calls: %s refused: %u\n", call, (unsigned)result);
    exit(1);
}

static void print_bytes(const char *label, const uint8_t *bytes, size_t len)
{
    printf("%s:%s", label, len == 0 ? "" : " ");
    for (size_t i = 0; i < len; i++)
        printf("%02x", bytes[i]);
    printf("\n");
}

/* ---- the wire ---- */

/* The host sends fragment after fragment until the card has the field whole. */
static void carry_command(const struct command *c, const uint8_t *field, size_t field_len, struct carried *got)
{
    uint8_t apdu[PIVSM_COMMAND_APDU_MAX];
    uint64_t chain = 0;
    size_t apdu_len, number = 0;

    do {
        must(pivsm_fragment_command(c->ins, c->p1, c->p2, field, field_len, 0, number++, apdu, sizeof apdu,
                                    &apdu_len),
             "fragment_command");
        print_bytes("command APDU", apdu, apdu_len);
        must(pivsm_reassemble_command(&chain, apdu, apdu_len, got->field, sizeof got->field, &got->field_len,
                                      &got->sw, &got->ins, &got->p1, &got->p2),
             "reassemble_command");
        if (got->sw != 0)
            printf("response APDU: %04x\n", got->sw);
    } while (got->sw != 0);
}

/* The card hands out the field as it is asked, and the host asks on until it has it whole. */
static void carry_response(uint16_t sw, const uint8_t *field, size_t field_len, struct carried *got)
{
    uint8_t apdu[PIVSM_RESPONSE_APDU_MAX], ask[PIVSM_GET_RESPONSE_SIZE] = {0};
    uint64_t chain = 0;
    size_t apdu_len, ask_len, at = 0;

    for (;;) {
        must(pivsm_fragment_response(sw, field, field_len, at, ask[4], apdu, sizeof apdu, &apdu_len, &at),
             "fragment_response");
        print_bytes("response APDU", apdu, apdu_len);
        must(pivsm_reassemble_response(&chain, apdu, apdu_len, got->field, sizeof got->field, &got->field_len,
                                       &got->sw),
             "reassemble_response");
        if (got->sw >> 8 != 0x61)
            return;
        must(pivsm_get_response(got->sw & 0xff, ask, sizeof ask, &ask_len), "get_response");
        print_bytes("command APDU", ask, ask_len);
    }
}

/* ---- the exchange ---- */

static void send_command(struct end *host, struct end *card, const struct command *c)
{
    static struct carried got;
    uint8_t field[PIVSM_COMMAND_FIELD_MAX], data[PIVSM_COMMAND_CIPHERTEXT_MAX];
    size_t field_len, data_len;
    bool le = false;

    printf("command: %s\n", c->name);
    must(pivsm_wrap_command(host->session, sizeof host->session, &host->session_len, c->ins, c->p1, c->p2, c->le,
                            (const uint8_t *)c->data, c->data_len, field, sizeof field, &field_len),
         "wrap_command");
    print_bytes("command field", field, field_len);
    carry_command(c, field, field_len, &got);
    must(pivsm_unwrap_command(card->session, sizeof card->session, &card->session_len, got.ins, got.p1, got.p2,
                              got.field, got.field_len, data, sizeof data, &data_len, &le),
         "unwrap_command");
    print_bytes("card data", data, data_len);
    printf("card Le: %s\n", le ? "yes" : "no");
}

static void send_response(struct end *host, struct end *card, uint16_t sw, const uint8_t *data, size_t data_len)
{
    static uint8_t field[PIVSM_RESPONSE_FIELD_MAX], out[PIVSM_RESPONSE_CIPHERTEXT_MAX];
    static struct carried got;
    size_t field_len, out_len;
    uint16_t status;

    must(pivsm_wrap_response(card->session, sizeof card->session, &card->session_len, sw, data, data_len, field,
                             sizeof field, &field_len),
         "wrap_response");
    print_bytes("response field", field, field_len);
    carry_response(sw, field, field_len, &got);
    must(pivsm_unwrap_response(host->session, sizeof host->session, &host->session_len, got.sw, got.field,
                               got.field_len, out, sizeof out, &out_len, &status),
         "unwrap_response");
    print_bytes("host data", out, out_len);
    printf("host status: %04x\n", status);
}

static void open_ends(struct end *host, struct end *card, uint32_t suite, size_t key_len)
{
    uint8_t enc[32], mac[32], rmac[32];

    for (size_t i = 0; i < key_len; i++) {
        enc[i] = (uint8_t)(0x00 + i);
        mac[i] = (uint8_t)(0x40 + i);
        rmac[i] = (uint8_t)(0x80 + i);
    }
    must(pivsm_open_host(suite, enc, key_len, mac, key_len, rmac, key_len, host->session, sizeof host->session,
                         &host->session_len),
         "open_host");
    must(pivsm_open_card(suite, enc, key_len, mac, key_len, rmac, key_len, card->session, sizeof card->session,
                         &card->session_len),
         "open_card");
}

static void run(const char *name, uint32_t suite, size_t key_len)
{
    static const struct command pairing = {"VERIFY", 0x20, 0x00, 0x98, false, "65135275", 8};
    static const struct command get = {"GET DATA", 0xcb, 0x3f, 0xff, true, "\x5c\x03\x5f\xc1\x05", 5};
    static const struct command retries = {"VERIFY", 0x20, 0x00, 0x80, false, NULL, 0};
    /* What GET DATA is answered with: '53' and 1,416 bytes. */
    uint8_t certificate[4 + 1416] = {0x53, 0x82, 0x05, 0x88};
    struct end host, card;

    for (size_t j = 0; j < 1416; j++)
        certificate[4 + j] = (uint8_t)(7 * j + 3);
    printf("suite: %s\n", name);
    open_ends(&host, &card, suite, key_len);
    send_command(&host, &card, &pairing);
    send_response(&host, &card, 0x9000, NULL, 0);
    send_command(&host, &card, &get);
    send_response(&host, &card, 0x9000, certificate, sizeof certificate);
    send_command(&host, &card, &retries);
    send_response(&host, &card, 0x63c3, NULL, 0);
}

int main(void)
{
    run("CS2", PIVSM_CS2, 16);
    run("CS7", PIVSM_CS7, 32);
    return fflush(stdout) == 0 ? 0 : 1;
}
