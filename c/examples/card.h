/* card.h - a reader with a simulated PIV card in it, for example.c. It is handed command APDUs and answers with
 * response APDUs; the host sees nothing else of it. The line between the two can be made to misbehave.
 */
#ifndef CARD_H
#define CARD_H

#include "pivsm.h"

/* The session keys, as another service agreed them with the card. */
struct session_keys {
    uint32_t suite;
    size_t len; /* of each key: 16 with CS2, 32 with CS7 */
    uint8_t enc[32], mac[32], rmac[32];
};

enum line {
    LINE_HONEST,
    LINE_REPLAYS,    /* answers with the response before, and does not ask the card */
    LINE_UNPROTECTED /* answers 69 82 itself, without secure messaging */
};

/* The APDUs of a response that the line has seen. */
struct recorded {
    uint8_t apdu[8][PIVSM_RESPONSE_APDU_MAX];
    size_t len[8];
    size_t count, next;
};

struct card {
    /* secure messaging: the session, and the state of both chains */
    uint8_t session[PIVSM_SESSION_SIZE];
    size_t session_len;
    uint64_t chain;
    uint8_t command[PIVSM_COMMAND_FIELD_MAX];
    uint8_t response[PIVSM_RESPONSE_FIELD_MAX];
    size_t response_len, at;
    uint16_t sw;
    /* the card application */
    bool pin_verified;
    /* the line */
    enum line line;
    struct recorded recorded;
};

/* Put a card into the reader, with a session of these keys open. */
uint32_t card_insert(struct card *card, const struct session_keys *keys);

/* Send a command APDU; gives the length of the response APDU. */
size_t card_transmit(struct card *card, const uint8_t *apdu, size_t apdu_len,
                     uint8_t answer[PIVSM_RESPONSE_APDU_MAX]);

#endif
