/* read_object.c - one read of a data object, for a host that keeps its session in a store between two reads. README.md
 * shows a part of it. Two functions are yours: transmit and store. example.c is a whole program.
 */
#include <pivsm.h>

struct host {
    uint8_t session[PIVSM_SESSION_SIZE];
    size_t session_len;
};

struct object {
    uint8_t data[PIVSM_RESPONSE_CIPHERTEXT_MAX]; /* an unwrap asks for room for the ciphertext */
    size_t data_len;
    uint16_t sw;
};

/* Yours: sends an APDU to the card, and gives the length of the answer, 0 where none came. */
size_t transmit(const uint8_t *apdu, size_t apdu_len, uint8_t answer[PIVSM_RESPONSE_APDU_MAX]);

/* Yours: stores the session's bytes in the place of those that were loaded, only where these still stand there (compare
 * and swap), and adds one read to the bill in the same transaction where `bill` is true. False: nothing was stored. */
bool store(const struct host *host, bool bill);

/* Sends a command's field in as many APDUs as it takes, and puts the response's field in its place. */
static bool exchange(uint8_t field[PIVSM_RESPONSE_FIELD_MAX], size_t *field_len, uint16_t *sw)
{
    uint8_t apdu[PIVSM_COMMAND_APDU_MAX], answer[PIVSM_RESPONSE_APDU_MAX];
    size_t apdu_len, answer_len, number = 0;
    uint64_t chain = 0;

    do { /* CLA is 1C on all fragments but the last */
        if (pivsm_fragment_command(0xCB, 0x3F, 0xFF, field, *field_len, 0, number++, apdu, sizeof apdu, &apdu_len)
            != PIVSM_OK)
            return false;
        answer_len = transmit(apdu, apdu_len, answer);
    } while (apdu[0] == 0x1C && answer_len == 2 && answer[0] == 0x90 && answer[1] == 0x00);
    while (pivsm_reassemble_response(&chain, answer, answer_len, field, PIVSM_RESPONSE_FIELD_MAX, field_len, sw)
           == PIVSM_OK) {
        if (*sw >> 8 != 0x61) /* SW1 is 61 for as long as there is more */
            return true;
        if (pivsm_get_response((uint8_t)(*sw & 0xFF), apdu, sizeof apdu, &apdu_len) != PIVSM_OK)
            return false;
        answer_len = transmit(apdu, apdu_len, answer);
    }
    return false;
}

enum fate {
    READ,         /* the card gave this object: verified, and billed by store */
    CARD_REFUSED, /* the card itself answered with another status than 90 00, in object->sw: verified, not billed */
    CLOSED,       /* closed, or at its command limit: agree new keys and open another */
    LINE_FAILED,  /* no verified answer came; the session still waits for it: close it and open another */
    NOT_SENT,     /* the command was refused before anything was sent: another read is under way, or a mistake */
    NOT_STORED    /* the stored bytes have changed meanwhile: drop this copy */
};

/* GET DATA for the object that tag_list names. */
enum fate read_object(struct host *host, const uint8_t *tag_list, size_t tag_list_len, struct object *object)
{
    uint8_t field[PIVSM_RESPONSE_FIELD_MAX];
    size_t field_len;
    uint16_t sw;
    uint32_t result;

    object->data_len = object->sw = 0;
    result = pivsm_wrap_command(host->session, sizeof host->session, &host->session_len, 0xCB, 0x3F, 0xFF, true,
                                tag_list, tag_list_len, field, sizeof field, &field_len);
    if (result == PIVSM_SESSION_CLOSED || result == PIVSM_COMMAND_LIMIT_REACHED)
        return CLOSED;
    if (result != PIVSM_OK)
        return NOT_SENT;
    if (!store(host, false)) /* before the command leaves: with older bytes the next one would get its counter again */
        return NOT_STORED;
    if (!exchange(field, &field_len, &sw))
        return LINE_FAILED;
    result = pivsm_unwrap_response(host->session, sizeof host->session, &host->session_len, sw, field, field_len,
                                   object->data, sizeof object->data, &object->data_len, &object->sw);
    if (result != PIVSM_OK && result != PIVSM_BAD_MAC && result != PIVSM_BAD_PADDING)
        return LINE_FAILED; /* the session did not change */
    if (!store(host, result == PIVSM_OK && object->sw == 0x9000)) /* the new bytes and the bill, or neither */
        return NOT_STORED;
    if (result != PIVSM_OK)
        return CLOSED;
    return object->sw == 0x9000 ? READ : CARD_REFUSED;
}
