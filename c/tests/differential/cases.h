/* cases.h - the kinds of cases, and what they share. Each kind runs one case; index counts the cases of that kind,
 * so that a kind can go through positions and lengths one after another. */
#ifndef CASES_H
#define CASES_H

#include "both.h"

enum { HOST = 0, CARD = 1, READY = 0, BUSY = 1, CLOSED = 2 };
/* How often a kind draws its arguments in one case, where a single call is all that it does. */
enum { TRIES = 3 };
enum { VERIFY = 0x20, CHANGE_REFERENCE_DATA = 0x24, GENERAL_AUTHENTICATE = 0x87, GET_DATA = 0xCB };

/* ---- Shared: scenery.c ---- */

/* A session with the given state and random keys and chaining values that keeps the rules of a saved session. */
void craft_session(struct saved *s, uint8_t side, uint8_t phase, uint8_t suite, uint32_t count);
/* A session for a call: mostly of this side and phase, sometimes not, sometimes at the command limit, sometimes
 * unreadable. */
void draw_session(struct saved *s, uint8_t side, uint8_t phase);
/* Damage a session's bytes, its length or its room. */
void spoil_session(struct saved *s);
/* A host and a card with the same keys, both freshly opened. */
void open_pair(struct saved *host, struct saved *card);
/* Random data bytes of this length; good until the next call. */
struct span draw_data(size_t len);
/* Mostly an INS that secure messaging carries. */
uint8_t draw_ins(void);
struct header draw_header(void);
/* A status word, sometimes one with SW1 61. */
uint16_t draw_status(void);
/* A length of data on or near a line of the rules, seldom a long one. */
size_t draw_command_length(void);
size_t draw_response_length(void);
/* A room around what is needed: too small, exact, or more. */
size_t draw_room(size_t needed);
/* The length of the field that data of p bytes makes, with `other` bytes beside '87'. */
size_t field_length(size_t p, size_t other);
/* A command that the host may wrap: header and Le, and the length of its data. */
void draw_command(struct header *h, bool *le, size_t *len);
/* Wrap a command at the host, accept it at the card; wrap a response, accept it. The field stays in *field. */
void send_command(struct saved *host, struct saved *card, struct room *field);
void send_response(struct saved *host, struct saved *card, struct room *field, uint16_t sw);
/* End the program where an answer is not the one that the case relies on. */
void expect(const char *what, uint64_t answer, uint64_t wanted);

/* ---- Fields that no honest end makes: forge.c ---- */

struct forged {
    struct room *field;
    size_t ciphertext; /* E; 0 without '87' */
};

/* A field for this receiver with at most one flaw of structure, and at times wrong padding or a wrong MAC. */
struct forged forge_field(const struct saved *receiver, bool response, struct header h, uint16_t sw);

/* ---- Kinds ---- */

void case_honest_session(uint64_t index);
void case_open(uint64_t index);
void case_damaged_saved_session(uint64_t index);
void case_saved_session_rules(uint64_t index);
void case_saved_session_length(uint64_t index);
void case_command_limit(uint64_t index);
void case_published_exchange(uint64_t index);

void case_wrap_command(uint64_t index);
void case_unwrap_command(uint64_t index);
void case_wrap_response(uint64_t index);
void case_unwrap_response(uint64_t index);
void case_damaged_command(uint64_t index);
void case_damaged_response(uint64_t index);
void case_repeated_messages(uint64_t index);

void case_fragment_command(uint64_t index);
void case_reassemble_command(uint64_t index);
void case_command_chain(uint64_t index);
void case_fragment_response(uint64_t index);
void case_reassemble_response(uint64_t index);
void case_response_chain(uint64_t index);
void case_get_response(uint64_t index);

#endif
