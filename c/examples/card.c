/* card.c - see card.h. The card's end of pivsm.h: reassemble a command, unwrap it, carry it out, wrap the response and
 * hand it out in fragments.
 */
#include "card.h"

#include <string.h>

enum { VERIFY = 0x20, GENERAL_AUTHENTICATE = 0x87, GET_RESPONSE = 0xC0, GET_DATA = 0xCB };

/* Status words (SP 800-73-4 Part 2, 3 and ISO/IEC 7816-4). */
enum {
    SW_DONE = 0x9000,
    SW_TWO_TRIES_LEFT = 0x63C2,
    SW_WRONG_LENGTH = 0x6700,
    SW_SECURITY_STATUS = 0x6982,
    SW_BAD_SECURE_MESSAGING = 0x6988,
    SW_NOT_FOUND = 0x6A82,
    SW_NOT_SUPPORTED = 0x6D00
};

/* ---- the card application: a PIN, one certificate, one key ---- */

/* '53' with a certificate in '70', 1,400 bytes in all; the certificate's own bytes are made up. */
static size_t certificate(uint8_t *data)
{
    static const uint8_t head[] = {0x53, 0x82, 0x05, 0x74, 0x70, 0x82, 0x05, 0x6B};
    static const uint8_t tail[] = {0x71, 0x01, 0x00, 0xFE, 0x00};
    enum { LENGTH = 1400 };

    memcpy(data, head, sizeof head);
    for (size_t i = sizeof head; i < LENGTH - sizeof tail; i++)
        data[i] = (uint8_t)(31 * i + 17);
    memcpy(data + LENGTH - sizeof tail, tail, sizeof tail);
    return LENGTH;
}

/* '7C' with 256 bytes in '82'. A real card signs; this one turns the bytes of the challenge around. */
static size_t signature(const uint8_t *challenge, uint8_t *data)
{
    static const uint8_t head[] = {0x7C, 0x82, 0x01, 0x04, 0x82, 0x82, 0x01, 0x00};

    memcpy(data, head, sizeof head);
    for (size_t i = 0; i < 256; i++)
        data[sizeof head + i] = challenge[255 - i];
    return sizeof head + 256;
}

/* Carry a command out: the status word, and the data of the response. */
static uint16_t carry_out(struct card *card, uint8_t ins, const uint8_t *data, size_t data_len, uint8_t *response,
                          size_t *response_len)
{
    static const uint8_t pin[8] = {'1', '2', '3', '4', '5', '6', 0xFF, 0xFF};
    static const uint8_t tag_list[5] = {0x5C, 0x03, 0x5F, 0xC1, 0x05};

    *response_len = 0;
    switch (ins) {
    case VERIFY:
        card->pin_verified = data_len == sizeof pin && memcmp(data, pin, sizeof pin) == 0;
        return card->pin_verified ? SW_DONE : SW_TWO_TRIES_LEFT;
    case GET_DATA:
        if (data_len != sizeof tag_list || memcmp(data, tag_list, sizeof tag_list) != 0)
            return SW_NOT_FOUND;
        *response_len = certificate(response);
        return SW_DONE;
    case GENERAL_AUTHENTICATE:
        if (!card->pin_verified)
            return SW_SECURITY_STATUS;
        if (data_len != 10 + 256)
            return SW_WRONG_LENGTH;
        *response_len = signature(data + 10, response);
        return SW_DONE;
    default:
        return SW_NOT_SUPPORTED;
    }
}

/* ---- secure messaging ---- */

static size_t put_status(uint16_t sw, uint8_t *answer)
{
    answer[0] = (uint8_t)(sw >> 8);
    answer[1] = (uint8_t)sw;
    return 2;
}

/* The next bytes of the response; le says how many the host asked for. */
static size_t hand_out(struct card *card, uint8_t le, uint8_t *answer)
{
    size_t answer_len, next;

    if (pivsm_fragment_response(card->sw, card->response, card->response_len, card->at, le, answer,
                                PIVSM_RESPONSE_APDU_MAX, &answer_len, &next) != PIVSM_OK)
        return put_status(SW_NOT_FOUND, answer); /* nothing is left, and so it stays */
    card->at = next;
    return answer_len;
}

/* A whole command. Where it is refused, no response can be wrapped, so the status goes out without protection. */
static size_t handle_command(struct card *card, uint8_t ins, uint8_t p1, uint8_t p2, size_t field_len,
                             uint8_t *answer)
{
    uint8_t data[PIVSM_COMMAND_CIPHERTEXT_MAX], response[2048];
    size_t data_len, response_len;
    bool le = false;

    card->response_len = card->at = 0; /* what was left of the last response is gone */
    if (pivsm_unwrap_command(card->session, sizeof card->session, &card->session_len, ins, p1, p2, card->command,
                             field_len, data, sizeof data, &data_len, &le) != PIVSM_OK)
        return put_status(SW_BAD_SECURE_MESSAGING, answer);
    card->sw = carry_out(card, ins, data, data_len, response, &response_len);
    if (pivsm_wrap_response(card->session, sizeof card->session, &card->session_len, card->sw, response, response_len,
                            card->response, sizeof card->response, &card->response_len) != PIVSM_OK)
        return put_status(SW_BAD_SECURE_MESSAGING, answer);
    return hand_out(card, 0, answer);
}

/* A command APDU as the card gets it. */
static size_t handle_apdu(struct card *card, const uint8_t *apdu, size_t apdu_len, uint8_t *answer)
{
    uint8_t ins, p1, p2;
    size_t field_len;
    uint16_t sw;

    if (apdu_len == PIVSM_GET_RESPONSE_SIZE && apdu[0] == 0x00 && apdu[1] == GET_RESPONSE)
        return hand_out(card, apdu[4], answer);
    if (pivsm_reassemble_command(&card->chain, apdu, apdu_len, card->command, sizeof card->command, &field_len, &sw,
                                 &ins, &p1, &p2) != PIVSM_OK)
        return put_status(SW_WRONG_LENGTH, answer);
    if (sw != 0) /* more fragments follow */
        return put_status(sw, answer);
    return handle_command(card, ins, p1, p2, field_len, answer);
}

/* ---- the reader ---- */

uint32_t card_insert(struct card *card, const struct session_keys *keys)
{
    memset(card, 0, sizeof *card);
    return pivsm_open_card(keys->suite, keys->enc, keys->len, keys->mac, keys->len, keys->rmac, keys->len,
                           card->session, sizeof card->session, &card->session_len);
}

/* The next APDU of the recorded response, or 6F 00 behind the last. */
static size_t replay(struct recorded *recorded, uint8_t *answer)
{
    size_t at = recorded->next++;

    if (at >= recorded->count)
        return put_status(0x6F00, answer);
    memcpy(answer, recorded->apdu[at], recorded->len[at]);
    return recorded->len[at];
}

static void record(struct recorded *recorded, bool first, const uint8_t *answer, size_t answer_len)
{
    if (first)
        recorded->count = recorded->next = 0;
    if (recorded->count == sizeof recorded->len / sizeof recorded->len[0])
        return;
    memcpy(recorded->apdu[recorded->count], answer, answer_len);
    recorded->len[recorded->count++] = answer_len;
}

size_t card_transmit(struct card *card, const uint8_t *apdu, size_t apdu_len,
                     uint8_t answer[PIVSM_RESPONSE_APDU_MAX])
{
    size_t answer_len;

    if (card->line == LINE_REPLAYS)
        return replay(&card->recorded, answer);
    if (card->line == LINE_UNPROTECTED)
        return put_status(SW_SECURITY_STATUS, answer);
    answer_len = handle_apdu(card, apdu, apdu_len, answer);
    record(&card->recorded, apdu_len > 1 && apdu[1] != GET_RESPONSE, answer, answer_len);
    return answer_len;
}
