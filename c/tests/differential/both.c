/* both.c - see both.h. */
#include "both.h"

#include "pivsm.h"
#include "reference.h"

#include <inttypes.h>
#include <stdio.h>
#include <string.h>

/* ---- Counts ---- */

enum call {
    OPEN_HOST,
    OPEN_CARD,
    CLOSE,
    WRAP_COMMAND,
    UNWRAP_COMMAND,
    WRAP_RESPONSE,
    UNWRAP_RESPONSE,
    FRAGMENT_COMMAND,
    REASSEMBLE_COMMAND,
    FRAGMENT_RESPONSE,
    REASSEMBLE_RESPONSE,
    GET_RESPONSE,
    CALLS
};

enum { ANSWERS = 17 };

#define BIT(n) (UINT32_C(1) << (n))

/* The calls, and the answers that each may give. */
static const struct {
    const char *name;
    uint32_t answers;
} calls[CALLS] = {
    {"open_host", BIT(0) | BIT(6) | BIT(11) | BIT(12)},
    {"open_card", BIT(0) | BIT(6) | BIT(11) | BIT(12)},
    {"close", BIT(0) | BIT(16)},
    {"wrap_command", BIT(0) | BIT(1) | BIT(2) | BIT(3) | BIT(4) | BIT(5) | BIT(6) | BIT(16)},
    {"unwrap_command", BIT(0) | BIT(1) | BIT(2) | BIT(3) | BIT(4) | BIT(5) | BIT(6) | BIT(7) | BIT(8) | BIT(9) |
                           BIT(10) | BIT(16)},
    {"wrap_response", BIT(0) | BIT(1) | BIT(2) | BIT(3) | BIT(4) | BIT(6) | BIT(16)},
    {"unwrap_response",
     BIT(0) | BIT(1) | BIT(2) | BIT(4) | BIT(6) | BIT(7) | BIT(8) | BIT(9) | BIT(10) | BIT(13) | BIT(16)},
    {"fragment_command", BIT(0) | BIT(4) | BIT(6) | BIT(14) | BIT(15)},
    {"reassemble_command", BIT(0) | BIT(4) | BIT(6) | BIT(7) | BIT(14)},
    {"fragment_response", BIT(0) | BIT(3) | BIT(4) | BIT(6) | BIT(14)},
    {"reassemble_response", BIT(0) | BIT(4) | BIT(6) | BIT(7) | BIT(14)},
    {"get_response", BIT(0) | BIT(6)},
};

static uint64_t counts[CALLS][ANSWERS];

static void compare_answer(enum call call, uint32_t library, uint32_t reference)
{
    compare_number(calls[call].name, "answer", library, reference);
    if (library >= ANSWERS)
        mismatch(calls[call].name, "no such answer", library, reference);
    counts[call][library]++;
}

static bool print_row(enum call call)
{
    bool good = true;
    printf("%-20s", calls[call].name);
    for (uint32_t a = 0; a < ANSWERS; a++) {
        bool allowed = (calls[call].answers & BIT(a)) != 0, met = counts[call][a] != 0;
        if (met || allowed)
            printf(" %" PRIu32 ":%" PRIu64, a, counts[call][a]);
        if (met != allowed) {
            printf(met ? "(NOT ALLOWED)" : "(NOT MET)");
            good = false;
        }
    }
    printf("\n");
    return good;
}

bool print_counts(void)
{
    bool good = true;
    printf("calls and answers, as ANSWER:TIMES\n");
    for (int call = 0; call < CALLS; call++) {
        if (!print_row((enum call)call))
            good = false;
    }
    return good;
}

/* ---- What the calls share ---- */

/* What a number holds before a call that must write it; not the same for the two. */
#define LIBRARY_GARBAGE 0xA7
#define REFERENCE_GARBAGE 0x59

/* A number of any type, once for each. */
#define TWO(type, name) \
    type name##_l, name##_r; \
    memset(&name##_l, LIBRARY_GARBAGE, sizeof name##_l); \
    memset(&name##_r, REFERENCE_GARBAGE, sizeof name##_r)

void make_room(struct room *r, size_t size)
{
    r->size = size;
    r->len = 0;
    draw_bytes(r->bytes, size);
}

struct span room_span(const struct room *r)
{
    struct span s = {r->bytes, r->len};
    return s;
}

static struct lent *lend_session(const struct saved *s)
{
    lend_none();
    return lend_output("session", s->bytes, s->size);
}

/* A session's bytes change on OK, and on 9 and 10, which close it; nothing behind them ever does. */
static void finish_session(enum call call, uint32_t answer, const struct lent *l, struct saved *s)
{
    bool changes = answer == PIVSM_OK || answer == PIVSM_BAD_MAC || answer == PIVSM_BAD_PADDING;
    check_unwritten(calls[call].name, l, changes ? PIVSM_SESSION_SIZE : 0);
    take_back(l, s->bytes);
}

/* An output is written on OK only, and only as far as the length says. */
static void finish_room(enum call call, uint32_t answer, const struct lent *l, size_t len, struct room *r)
{
    check_unwritten(calls[call].name, l, answer == PIVSM_OK ? len : 0);
    take_back(l, r->bytes);
    r->len = len;
}

/* ---- Sessions ---- */

uint32_t both_open(bool card, uint32_t suite, const struct span keys[3], struct saved *s)
{
    enum call call = card ? OPEN_CARD : OPEN_HOST;
    struct lent *out = lend_session(s), *k[3];
    uint32_t answer, want;
    TWO(size_t, len);
    for (int i = 0; i < 3; i++)
        k[i] = lend_input("key", keys[i].bytes, keys[i].len);
    answer = (card ? pivsm_open_card : pivsm_open_host)(suite, k[0]->library, keys[0].len, k[1]->library,
                                                        keys[1].len, k[2]->library, keys[2].len, out->library,
                                                        s->size, &len_l);
    want = (card ? reference_open_card : reference_open_host)(suite, k[0]->reference, keys[0].len, k[1]->reference,
                                                              keys[1].len, k[2]->reference, keys[2].len,
                                                              out->reference, s->size, &len_r);
    compare_answer(call, answer, want);
    compare_number(calls[call].name, "session_len", len_l, len_r);
    compare_lent(calls[call].name);
    finish_session(call, answer, out, s);
    s->len = len_l;
    return answer;
}

uint32_t both_close(struct saved *s)
{
    struct lent *session = lend_session(s);
    size_t len_l = s->len, len_r = s->len;
    uint32_t answer = pivsm_close(session->library, s->size, &len_l);
    uint32_t want = reference_close(session->reference, s->size, &len_r);
    compare_answer(CLOSE, answer, want);
    compare_number("close", "session_len", len_l, len_r);
    compare_lent("close");
    finish_session(CLOSE, answer, session, s);
    s->len = len_l;
    return answer;
}

/* ---- Messages ---- */

uint32_t both_wrap_command(struct saved *s, struct header h, bool le, struct span data, struct room *field)
{
    struct lent *session = lend_session(s);
    struct lent *in = lend_input("data", data.bytes, data.len);
    struct lent *out = lend_output("field", field->bytes, field->size);
    size_t len_l = s->len, len_r = s->len;
    uint32_t answer, want;
    TWO(size_t, field_len);
    answer = pivsm_wrap_command(session->library, s->size, &len_l, h.ins, h.p1, h.p2, le, in->library, data.len,
                                out->library, field->size, &field_len_l);
    want = reference_wrap_command(session->reference, s->size, &len_r, h.ins, h.p1, h.p2, le, in->reference,
                                  data.len, out->reference, field->size, &field_len_r);
    compare_answer(WRAP_COMMAND, answer, want);
    compare_number("wrap_command", "session_len", len_l, len_r);
    compare_number("wrap_command", "field_len", field_len_l, field_len_r);
    compare_lent("wrap_command");
    finish_session(WRAP_COMMAND, answer, session, s);
    finish_room(WRAP_COMMAND, answer, out, field_len_l, field);
    s->len = len_l;
    return answer;
}

uint32_t both_unwrap_command(struct saved *s, struct header h, struct span field, struct room *data, bool *le)
{
    struct lent *session = lend_session(s);
    struct lent *in = lend_input("field", field.bytes, field.len);
    struct lent *out = lend_output("data", data->bytes, data->size);
    size_t len_l = s->len, len_r = s->len;
    bool le_l = one_in(2), le_r = !le_l; /* not the same, and each of them sometimes true */
    uint32_t answer, want;
    TWO(size_t, data_len);
    answer = pivsm_unwrap_command(session->library, s->size, &len_l, h.ins, h.p1, h.p2, in->library, field.len,
                                  out->library, data->size, &data_len_l, &le_l);
    want = reference_unwrap_command(session->reference, s->size, &len_r, h.ins, h.p1, h.p2, in->reference,
                                    field.len, out->reference, data->size, &data_len_r, &le_r);
    compare_answer(UNWRAP_COMMAND, answer, want);
    compare_number("unwrap_command", "session_len", len_l, len_r);
    compare_number("unwrap_command", "data_len", data_len_l, data_len_r);
    compare_number("unwrap_command", "le", le_l, le_r);
    compare_lent("unwrap_command");
    finish_session(UNWRAP_COMMAND, answer, session, s);
    finish_room(UNWRAP_COMMAND, answer, out, data_len_l, data);
    s->len = len_l;
    *le = le_l;
    return answer;
}

uint32_t both_wrap_response(struct saved *s, uint16_t sw, struct span data, struct room *field)
{
    struct lent *session = lend_session(s);
    struct lent *in = lend_input("data", data.bytes, data.len);
    struct lent *out = lend_output("field", field->bytes, field->size);
    size_t len_l = s->len, len_r = s->len;
    uint32_t answer, want;
    TWO(size_t, field_len);
    answer = pivsm_wrap_response(session->library, s->size, &len_l, sw, in->library, data.len, out->library,
                                 field->size, &field_len_l);
    want = reference_wrap_response(session->reference, s->size, &len_r, sw, in->reference, data.len, out->reference,
                                   field->size, &field_len_r);
    compare_answer(WRAP_RESPONSE, answer, want);
    compare_number("wrap_response", "session_len", len_l, len_r);
    compare_number("wrap_response", "field_len", field_len_l, field_len_r);
    compare_lent("wrap_response");
    finish_session(WRAP_RESPONSE, answer, session, s);
    finish_room(WRAP_RESPONSE, answer, out, field_len_l, field);
    s->len = len_l;
    return answer;
}

uint32_t both_unwrap_response(struct saved *s, uint16_t sw, struct span field, struct room *data,
                              uint16_t *authentic_sw)
{
    struct lent *session = lend_session(s);
    struct lent *in = lend_input("field", field.bytes, field.len);
    struct lent *out = lend_output("data", data->bytes, data->size);
    size_t len_l = s->len, len_r = s->len;
    uint32_t answer, want;
    TWO(size_t, data_len);
    TWO(uint16_t, sw);
    answer = pivsm_unwrap_response(session->library, s->size, &len_l, sw, in->library, field.len, out->library,
                                   data->size, &data_len_l, &sw_l);
    want = reference_unwrap_response(session->reference, s->size, &len_r, sw, in->reference, field.len,
                                     out->reference, data->size, &data_len_r, &sw_r);
    compare_answer(UNWRAP_RESPONSE, answer, want);
    compare_number("unwrap_response", "session_len", len_l, len_r);
    compare_number("unwrap_response", "data_len", data_len_l, data_len_r);
    compare_number("unwrap_response", "authentic_sw", sw_l, sw_r);
    compare_lent("unwrap_response");
    finish_session(UNWRAP_RESPONSE, answer, session, s);
    finish_room(UNWRAP_RESPONSE, answer, out, data_len_l, data);
    s->len = len_l;
    *authentic_sw = sw_l;
    return answer;
}

/* ---- The wire ---- */

uint32_t both_fragment_command(struct header h, struct span field, size_t size, size_t number, struct room *apdu)
{
    struct lent *in, *out;
    uint32_t answer, want;
    TWO(size_t, len);
    lend_none();
    in = lend_input("field", field.bytes, field.len);
    out = lend_output("apdu", apdu->bytes, apdu->size);
    answer = pivsm_fragment_command(h.ins, h.p1, h.p2, in->library, field.len, size, number, out->library,
                                    apdu->size, &len_l);
    want = reference_fragment_command(h.ins, h.p1, h.p2, in->reference, field.len, size, number, out->reference,
                                      apdu->size, &len_r);
    compare_answer(FRAGMENT_COMMAND, answer, want);
    compare_number("fragment_command", "apdu_len", len_l, len_r);
    compare_lent("fragment_command");
    finish_room(FRAGMENT_COMMAND, answer, out, len_l, apdu);
    return answer;
}

uint32_t both_reassemble_command(uint64_t *chain, struct span apdu, struct room *field, uint16_t *sw,
                                 struct header *h)
{
    struct lent *in, *out;
    uint64_t chain_l = *chain, chain_r = *chain;
    uint32_t answer, want;
    TWO(size_t, len);
    TWO(uint16_t, sw);
    TWO(struct header, h);
    lend_none();
    in = lend_input("apdu", apdu.bytes, apdu.len);
    out = lend_output("field", field->bytes, field->size);
    answer = pivsm_reassemble_command(&chain_l, in->library, apdu.len, out->library, field->size, &len_l, &sw_l,
                                      &h_l.ins, &h_l.p1, &h_l.p2);
    want = reference_reassemble_command(&chain_r, in->reference, apdu.len, out->reference, field->size, &len_r,
                                        &sw_r, &h_r.ins, &h_r.p1, &h_r.p2);
    compare_answer(REASSEMBLE_COMMAND, answer, want);
    compare_number("reassemble_command", "chain", chain_l, chain_r);
    compare_number("reassemble_command", "field_len", len_l, len_r);
    compare_number("reassemble_command", "sw", sw_l, sw_r);
    compare_number("reassemble_command", "ins", h_l.ins, h_r.ins);
    compare_number("reassemble_command", "p1", h_l.p1, h_r.p1);
    compare_number("reassemble_command", "p2", h_l.p2, h_r.p2);
    compare_lent("reassemble_command");
    finish_room(REASSEMBLE_COMMAND, answer, out, len_l, field);
    *chain = chain_l;
    *sw = sw_l;
    *h = h_l;
    return answer;
}

uint32_t both_fragment_response(uint16_t sw, struct span field, size_t at, uint8_t le, struct room *apdu,
                                size_t *next)
{
    struct lent *in, *out;
    uint32_t answer, want;
    TWO(size_t, len);
    TWO(size_t, next);
    lend_none();
    in = lend_input("field", field.bytes, field.len);
    out = lend_output("apdu", apdu->bytes, apdu->size);
    answer = pivsm_fragment_response(sw, in->library, field.len, at, le, out->library, apdu->size, &len_l, &next_l);
    want = reference_fragment_response(sw, in->reference, field.len, at, le, out->reference, apdu->size, &len_r,
                                       &next_r);
    compare_answer(FRAGMENT_RESPONSE, answer, want);
    compare_number("fragment_response", "apdu_len", len_l, len_r);
    compare_number("fragment_response", "next", next_l, next_r);
    compare_lent("fragment_response");
    finish_room(FRAGMENT_RESPONSE, answer, out, len_l, apdu);
    *next = next_l;
    return answer;
}

uint32_t both_reassemble_response(uint64_t *chain, struct span apdu, struct room *field, uint16_t *sw)
{
    struct lent *in, *out;
    uint64_t chain_l = *chain, chain_r = *chain;
    uint32_t answer, want;
    TWO(size_t, len);
    TWO(uint16_t, sw);
    lend_none();
    in = lend_input("apdu", apdu.bytes, apdu.len);
    out = lend_output("field", field->bytes, field->size);
    answer = pivsm_reassemble_response(&chain_l, in->library, apdu.len, out->library, field->size, &len_l, &sw_l);
    want = reference_reassemble_response(&chain_r, in->reference, apdu.len, out->reference, field->size, &len_r,
                                         &sw_r);
    compare_answer(REASSEMBLE_RESPONSE, answer, want);
    compare_number("reassemble_response", "chain", chain_l, chain_r);
    compare_number("reassemble_response", "field_len", len_l, len_r);
    compare_number("reassemble_response", "sw", sw_l, sw_r);
    compare_lent("reassemble_response");
    finish_room(REASSEMBLE_RESPONSE, answer, out, len_l, field);
    *chain = chain_l;
    *sw = sw_l;
    return answer;
}

uint32_t both_get_response(uint8_t le, struct room *apdu)
{
    struct lent *out;
    uint32_t answer, want;
    TWO(size_t, len);
    lend_none();
    out = lend_output("apdu", apdu->bytes, apdu->size);
    answer = pivsm_get_response(le, out->library, apdu->size, &len_l);
    want = reference_get_response(le, out->reference, apdu->size, &len_r);
    compare_answer(GET_RESPONSE, answer, want);
    compare_number("get_response", "apdu_len", len_l, len_r);
    compare_lent("get_response");
    finish_room(GET_RESPONSE, answer, out, len_l, apdu);
    return answer;
}
