/* refusals_write_nothing.c - a refused call of pivsm.h stores nothing but its numbers: each call meets each of its
 * refusals with its session, its inputs and its output in pages that can only be read. The session alone is writable
 * at PIVSM_BAD_MAC and PIVSM_BAD_PADDING, which close it; session and output are at PIVSM_OK. Each buffer ends where a
 * page without access begins, so a step past its end shows too. The numbers behind pointers are part of the answer and
 * lie in ordinary memory.
 *
 * It prints a line for each call, and on stderr a line for each case that went wrong.
 */
#define _DEFAULT_SOURCE /* MAP_ANONYMOUS */
#include "pivsm.h"

#include <setjmp.h>
#include <signal.h>
#include <stdio.h>
#include <stdlib.h>
#include <string.h>
#include <sys/mman.h>
#include <unistd.h>

enum { ROOM = 16500, P1 = 0x3f, P2 = 0xff, OK_SW = 0x9000, STALE = 0x5a };
enum { VERIFY = 0x20, CHANGE_REFERENCE_DATA = 0x24, GENERAL_AUTHENTICATE = 0x87, SELECT = 0xa4, GET_DATA = 0xcb };

/* The places in a session's bytes that cases change. */
enum { COUNT = 6, SK_ENC = 10, COMMAND_MCV = 106, RESPONSE_MCV = 122 };

static const uint8_t data[5] = {0x5c, 0x03, 0x5f, 0xc1, 0x05};
static const uint8_t zeros[ROOM];

struct session {
    uint8_t bytes[2 * PIVSM_SESSION_SIZE]; /* more than a session has, for lengths that are none */
    size_t size, len;
};

/* What a call is given; it takes of this what it has parameters for. */
struct request {
    struct session session;
    const uint8_t *input[3]; /* an opening has three: its keys */
    size_t input_len[3];
    size_t room; /* of the output; at an opening this is the session's */
    uint32_t suite;
    uint8_t ins;
    bool le;
    uint16_t sw;
    size_t size, number, at;
    uint64_t chain;
};

/* What a call gives through pointers; 0 where it has no such pointer. `len` is that of the output. */
struct numbers {
    size_t session_len, len, next;
    uint64_t chain;
    uint16_t sw;
    bool le;
    uint8_t ins, p1, p2;
};

/* ---- the memory that is lent ---- */

enum buffer { SESSION, INPUT, SECOND_KEY, THIRD_KEY, OUTPUT, BUFFERS };

static const char *const buffer_names[BUFFERS] = {"the session", "the input", "sk_mac", "sk_rmac", "the output"};

/* The pages of a buffer, which lies at their end, and one without access behind them. */
static struct {
    uint8_t *start, *end, *before;
} memory[BUFFERS];

static size_t page, area;
static uint8_t *lent[BUFFERS];
static size_t lent_len[BUFFERS];
static struct numbers numbers;

/* What a case needs and is not itself about. */
static void must(bool holds, const char *what)
{
    if (holds)
        return;
    fprintf(stderr, "refusals_write_nothing: %s\n", what);
    exit(1);
}

static void map_memory(void)
{
    page = (size_t)sysconf(_SC_PAGESIZE);
    area = (ROOM + page - 1) / page * page;
    for (int b = 0; b < BUFFERS; b++) {
        uint8_t *start = mmap(NULL, area + page, PROT_READ | PROT_WRITE, MAP_PRIVATE | MAP_ANONYMOUS, -1, 0);

        must(start != MAP_FAILED && mprotect(start + area, page, PROT_NONE) == 0, "no memory");
        memory[b].start = start;
        memory[b].end = start + area;
        memory[b].before = malloc(area);
        must(memory[b].before != NULL, "no memory");
    }
}

/* Put bytes into a buffer, or leave it filled where it is an output. An empty one is NULL, or else it starts at the
 * page without access.
 */
static void lend(enum buffer b, const uint8_t *bytes, size_t len, bool null, bool writable)
{
    must(mprotect(memory[b].start, area, PROT_READ | PROT_WRITE) == 0, "mprotect");
    memset(memory[b].start, 0xa5, area);
    lent[b] = memory[b].end - len;
    lent_len[b] = len;
    if (bytes != NULL)
        memcpy(lent[b], bytes, len);
    if (len == 0 && null)
        lent[b] = NULL;
    memcpy(memory[b].before, memory[b].start, area);
    must(mprotect(memory[b].start, area, writable ? PROT_READ | PROT_WRITE : PROT_READ) == 0, "mprotect");
}

/* ---- the calls, on what was lent ---- */

static uint32_t open_host(const struct request *r)
{
    numbers.len = STALE;
    return pivsm_open_host(r->suite, lent[INPUT], lent_len[INPUT], lent[SECOND_KEY], lent_len[SECOND_KEY],
                           lent[THIRD_KEY], lent_len[THIRD_KEY], lent[OUTPUT], lent_len[OUTPUT], &numbers.len);
}

static uint32_t open_card(const struct request *r)
{
    numbers.len = STALE;
    return pivsm_open_card(r->suite, lent[INPUT], lent_len[INPUT], lent[SECOND_KEY], lent_len[SECOND_KEY],
                           lent[THIRD_KEY], lent_len[THIRD_KEY], lent[OUTPUT], lent_len[OUTPUT], &numbers.len);
}

static uint32_t close_session(const struct request *r)
{
    (void)r;
    return pivsm_close(lent[SESSION], lent_len[SESSION], &numbers.session_len);
}

static uint32_t wrap_command(const struct request *r)
{
    numbers.len = STALE;
    return pivsm_wrap_command(lent[SESSION], lent_len[SESSION], &numbers.session_len, r->ins, P1, P2, r->le,
                              lent[INPUT], lent_len[INPUT], lent[OUTPUT], lent_len[OUTPUT], &numbers.len);
}

static uint32_t unwrap_command(const struct request *r)
{
    numbers.len = STALE;
    numbers.le = true;
    return pivsm_unwrap_command(lent[SESSION], lent_len[SESSION], &numbers.session_len, r->ins, P1, P2, lent[INPUT],
                                lent_len[INPUT], lent[OUTPUT], lent_len[OUTPUT], &numbers.len, &numbers.le);
}

static uint32_t wrap_response(const struct request *r)
{
    numbers.len = STALE;
    return pivsm_wrap_response(lent[SESSION], lent_len[SESSION], &numbers.session_len, r->sw, lent[INPUT],
                               lent_len[INPUT], lent[OUTPUT], lent_len[OUTPUT], &numbers.len);
}

static uint32_t unwrap_response(const struct request *r)
{
    numbers.len = STALE;
    numbers.sw = STALE;
    return pivsm_unwrap_response(lent[SESSION], lent_len[SESSION], &numbers.session_len, r->sw, lent[INPUT],
                                 lent_len[INPUT], lent[OUTPUT], lent_len[OUTPUT], &numbers.len, &numbers.sw);
}

static uint32_t fragment_command(const struct request *r)
{
    numbers.len = STALE;
    return pivsm_fragment_command(r->ins, P1, P2, lent[INPUT], lent_len[INPUT], r->size, r->number, lent[OUTPUT],
                                  lent_len[OUTPUT], &numbers.len);
}

static uint32_t reassemble_command(const struct request *r)
{
    numbers = (struct numbers){.len = STALE, .chain = r->chain, .sw = STALE, .ins = STALE, .p1 = STALE, .p2 = STALE};
    return pivsm_reassemble_command(&numbers.chain, lent[INPUT], lent_len[INPUT], lent[OUTPUT], lent_len[OUTPUT],
                                    &numbers.len, &numbers.sw, &numbers.ins, &numbers.p1, &numbers.p2);
}

static uint32_t fragment_response(const struct request *r)
{
    numbers.len = STALE;
    numbers.next = STALE;
    return pivsm_fragment_response(r->sw, lent[INPUT], lent_len[INPUT], r->at, 0, lent[OUTPUT], lent_len[OUTPUT],
                                   &numbers.len, &numbers.next);
}

static uint32_t reassemble_response(const struct request *r)
{
    numbers = (struct numbers){.len = STALE, .chain = r->chain, .sw = STALE};
    return pivsm_reassemble_response(&numbers.chain, lent[INPUT], lent_len[INPUT], lent[OUTPUT], lent_len[OUTPUT],
                                     &numbers.len, &numbers.sw);
}

static uint32_t get_response(const struct request *r)
{
    (void)r;
    numbers.len = STALE;
    return pivsm_get_response(0, lent[OUTPUT], lent_len[OUTPUT], &numbers.len);
}

enum call {
    OPEN_HOST, OPEN_CARD, CLOSE, WRAP_COMMAND, UNWRAP_COMMAND, WRAP_RESPONSE, UNWRAP_RESPONSE, FRAGMENT_COMMAND,
    REASSEMBLE_COMMAND, FRAGMENT_RESPONSE, REASSEMBLE_RESPONSE, GET_RESPONSE, CALLS
};

/* The results of each call, in the order of the header: a case must meet each, and no other. */
static const struct {
    const char *name;
    uint32_t (*run)(const struct request *);
    uint32_t results[13]; /* PIVSM_OK is the last */
} calls[CALLS] = {
    {"pivsm_open_host", open_host, {PIVSM_UNKNOWN_SUITE, PIVSM_BAD_KEY_LENGTH, PIVSM_BUFFER_TOO_SMALL, PIVSM_OK}},
    {"pivsm_open_card", open_card, {PIVSM_UNKNOWN_SUITE, PIVSM_BAD_KEY_LENGTH, PIVSM_BUFFER_TOO_SMALL, PIVSM_OK}},
    {"pivsm_close", close_session, {PIVSM_BAD_SESSION, PIVSM_OK}},
    {"pivsm_wrap_command", wrap_command,
     {PIVSM_BAD_SESSION, PIVSM_SESSION_CLOSED, PIVSM_OUT_OF_TURN, PIVSM_NOT_PERMITTED, PIVSM_TOO_LONG,
      PIVSM_COMMAND_LIMIT_REACHED, PIVSM_BUFFER_TOO_SMALL, PIVSM_OK}},
    {"pivsm_unwrap_command", unwrap_command,
     {PIVSM_BAD_SESSION, PIVSM_SESSION_CLOSED, PIVSM_OUT_OF_TURN, PIVSM_NOT_PERMITTED, PIVSM_TOO_LONG,
      PIVSM_COMMAND_LIMIT_REACHED, PIVSM_MALFORMED, PIVSM_MISSING_OBJECT, PIVSM_BUFFER_TOO_SMALL, PIVSM_BAD_MAC,
      PIVSM_BAD_PADDING, PIVSM_OK}},
    {"pivsm_wrap_response", wrap_response,
     {PIVSM_BAD_SESSION, PIVSM_SESSION_CLOSED, PIVSM_OUT_OF_TURN, PIVSM_NOT_PERMITTED, PIVSM_TOO_LONG,
      PIVSM_BUFFER_TOO_SMALL, PIVSM_OK}},
    {"pivsm_unwrap_response", unwrap_response,
     {PIVSM_BAD_SESSION, PIVSM_SESSION_CLOSED, PIVSM_OUT_OF_TURN, PIVSM_UNPROTECTED, PIVSM_TOO_LONG, PIVSM_MALFORMED,
      PIVSM_MISSING_OBJECT, PIVSM_BUFFER_TOO_SMALL, PIVSM_BAD_MAC, PIVSM_BAD_PADDING, PIVSM_OK}},
    {"pivsm_fragment_command", fragment_command,
     {PIVSM_FRAGMENT_TOO_LONG, PIVSM_TOO_LONG, PIVSM_BROKEN_CHAIN, PIVSM_BUFFER_TOO_SMALL, PIVSM_OK}},
    {"pivsm_reassemble_command", reassemble_command,
     {PIVSM_MALFORMED, PIVSM_BROKEN_CHAIN, PIVSM_TOO_LONG, PIVSM_BUFFER_TOO_SMALL, PIVSM_OK}},
    {"pivsm_fragment_response", fragment_response,
     {PIVSM_NOT_PERMITTED, PIVSM_TOO_LONG, PIVSM_BROKEN_CHAIN, PIVSM_BUFFER_TOO_SMALL, PIVSM_OK}},
    {"pivsm_reassemble_response", reassemble_response,
     {PIVSM_MALFORMED, PIVSM_BROKEN_CHAIN, PIVSM_TOO_LONG, PIVSM_BUFFER_TOO_SMALL, PIVSM_OK}},
    {"pivsm_get_response", get_response, {PIVSM_BUFFER_TOO_SMALL, PIVSM_OK}},
};

/* ---- a case: the call comes back with that result and those numbers, and all other bytes are the old ones ---- */

struct trial {
    enum call call;
    uint32_t suite; /* 0 where there is none */
    const char *name;
    uint32_t result;
    struct numbers numbers;
    bool wrong;
};

static size_t cases, wrong_cases;
static bool met[CALLS][PIVSM_BAD_SESSION + 1], failed[CALLS][PIVSM_BAD_SESSION + 1];

static struct trial trial(enum call call, const char *name, const struct request *r, uint32_t result,
                          struct numbers given)
{
    struct trial t = {call, r->suite, name, result, given, false};
    const uint32_t *listed = calls[call].results;

    while (*listed != result && *listed != PIVSM_OK)
        listed++;
    must(*listed == result, "a result that the header does not list");
    met[call][result] = true;
    cases++;
    return t;
}

/* A line for the first thing that is wrong with a case. */
static void fails(struct trial *t, const char *what, const char *which)
{
    if (t->wrong)
        return;
    t->wrong = true;
    wrong_cases++;
    failed[t->call][t->result] = true;
    fprintf(stderr, "%s, %s %u, %s", calls[t->call].name, t->result == PIVSM_OK ? "result" : "refusal",
            (unsigned)t->result, t->name);
    if (t->suite != 0)
        fprintf(stderr, ", CS%u", (unsigned)t->suite);
    fprintf(stderr, ": %s%s\n", what, which);
}

static bool closes_session(uint32_t result)
{
    return result == PIVSM_BAD_MAC || result == PIVSM_BAD_PADDING;
}

static sigjmp_buf before_call;
static volatile sig_atomic_t in_call;
static const uint8_t *volatile fault;

/* A fault of the call under test ends this call; another one ends the program. */
static void on_fault(int number, siginfo_t *info, void *context)
{
    (void)context;
    fault = info->si_addr;
    if (in_call)
        siglongjmp(before_call, 1);
    signal(number, SIG_DFL);
}

static void catch_faults(void)
{
    struct sigaction action;

    memset(&action, 0, sizeof action);
    action.sa_sigaction = on_fault;
    action.sa_flags = SA_SIGINFO;
    sigemptyset(&action.sa_mask);
    must(sigaction(SIGSEGV, &action, NULL) == 0 && sigaction(SIGBUS, &action, NULL) == 0, "sigaction");
}

static uint32_t returned;

/* Whether the call came back; else it touched `fault`, which it may not. */
static bool comes_back(enum call call, const struct request *r)
{
    if (sigsetjmp(before_call, 1) != 0) {
        in_call = 0;
        return false;
    }
    in_call = 1;
    returned = calls[call].run(r);
    in_call = 0;
    return true;
}

/* The pages can all be read, so a fault in them is a store. */
static void report_fault(struct trial *t)
{
    for (int b = 0; b < BUFFERS; b++) {
        if (fault >= memory[b].start && fault < memory[b].end)
            fails(t, "stores into ", buffer_names[b]);
        if (fault >= memory[b].end && fault < memory[b].end + page)
            fails(t, "goes past the end of ", buffer_names[b]);
    }
    fails(t, "faults outside of what was lent", "");
}

static bool same_numbers(const struct numbers *a, const struct numbers *b)
{
    return a->session_len == b->session_len && a->len == b->len && a->next == b->next && a->chain == b->chain &&
           a->sw == b->sw && a->le == b->le && a->ins == b->ins && a->p1 == b->p1 && a->p2 == b->p2;
}

static struct session closed(struct session s)
{
    must(pivsm_close(s.bytes, s.size, &s.len) == PIVSM_OK, "a session to close");
    return s;
}

/* What the call may write goes into the old bytes before all are compared: at PIVSM_OK what stands in the session, and
 * in as much of the output as the length says; at 9 and 10 the closed session.
 */
static void compare_bytes(struct trial *t, const struct request *r)
{
    if (t->result == PIVSM_OK) {
        memcpy(memory[SESSION].before + area - r->session.size, memory[SESSION].end - r->session.size,
               r->session.len);
        memcpy(memory[OUTPUT].before + area - r->room, memory[OUTPUT].end - r->room, t->numbers.len);
    } else if (closes_session(t->result)) {
        struct session s = closed(r->session);

        memcpy(memory[SESSION].before + area - s.size, s.bytes, s.len);
    }
    for (int b = 0; b < BUFFERS; b++) {
        if (memcmp(memory[b].start, memory[b].before, area) != 0)
            fails(t, "has other bytes in ", buffer_names[b]);
    }
}

static void run_with(struct trial *t, const struct request *r, bool null)
{
    bool ok = t->result == PIVSM_OK;
    char number[12];

    lend(SESSION, r->session.bytes, r->session.size, null, ok || closes_session(t->result));
    for (int i = 0; i < 3; i++)
        lend(INPUT + i, r->input[i], r->input_len[i], null, false);
    lend(OUTPUT, NULL, r->room, null, ok);
    numbers = (struct numbers){.session_len = r->session.len};
    if (!comes_back(t->call, r)) {
        report_fault(t);
        return;
    }
    snprintf(number, sizeof number, "%u", (unsigned)returned);
    if (returned != t->result)
        fails(t, "gives ", number);
    else if (!same_numbers(&numbers, &t->numbers))
        fails(t, "gives other numbers", "");
    else
        compare_bytes(t, r);
}

/* Empty buffers are lent in both ways. */
static void run(struct trial *t, const struct request *r)
{
    run_with(t, r, false);
    run_with(t, r, true);
}

static void accepts(enum call call, const char *name, struct request r, struct numbers given)
{
    struct trial t = trial(call, name, &r, PIVSM_OK, given);

    run(&t, &r);
}

/* Refused with numbers that are 0, but for the session's length, which stays, and the status word at 13; with no room
 * for an output too, where that refusal comes before 6.
 */
static void refuses(enum call call, uint32_t refusal, const char *name, struct request r)
{
    const struct numbers given = {.session_len = r.session.len, .sw = refusal == PIVSM_UNPROTECTED ? r.sw : 0};
    struct trial t = trial(call, name, &r, refusal, given);

    run(&t, &r);
    r.room = 0;
    if (!closes_session(refusal))
        run(&t, &r);
}

/* Refused as too small, with that size, in every room below it. */
static void needs(enum call call, const char *name, struct request r, size_t size)
{
    const struct numbers given = {.session_len = r.session.len, .len = size};
    struct trial t = trial(call, name, &r, PIVSM_BUFFER_TOO_SMALL, given);

    for (r.room = 0; r.room < size; r.room++)
        run(&t, &r);
}

/* ---- requests that differ in one thing ---- */

static struct request with_session(struct request r, struct session s)
{
    r.session = s;
    return r;
}

static struct request with_input(struct request r, const uint8_t *input, size_t len)
{
    r.input[0] = input;
    r.input_len[0] = len;
    return r;
}

static struct request with_command(struct request r, uint8_t ins, bool le)
{
    r.ins = ins;
    r.le = le;
    return r;
}

static struct request with_status(struct request r, uint16_t sw)
{
    r.sw = sw;
    return r;
}

static struct request with_chain(struct request r, uint64_t chain)
{
    r.chain = chain;
    return r;
}

static struct request with_room(struct request r, size_t room)
{
    r.room = room;
    return r;
}

/* ---- a host and a card with the same keys, and their first messages ---- */

struct ends {
    uint32_t suite;
    size_t key_len;
    uint8_t keys[3][32];
    struct session host, card;    /* opened */
    struct session waiting, busy; /* after the first command */
    uint8_t command[32], response[33];
};

static void open_ends(struct ends *e, uint32_t suite, size_t key_len)
{
    e->suite = suite;
    e->key_len = key_len;
    for (size_t k = 0; k < 3; k++) {
        for (size_t i = 0; i < key_len; i++)
            e->keys[k][i] = (uint8_t)(0x40 * k + i);
    }
    memset(&e->host, 0, sizeof e->host);
    e->host.size = PIVSM_SESSION_SIZE;
    e->card = e->host;
    must(pivsm_open_host(suite, e->keys[0], key_len, e->keys[1], key_len, e->keys[2], key_len, e->host.bytes,
                         e->host.size, &e->host.len) == PIVSM_OK &&
             pivsm_open_card(suite, e->keys[0], key_len, e->keys[1], key_len, e->keys[2], key_len, e->card.bytes,
                             e->card.size, &e->card.len) == PIVSM_OK,
         "an opening");
}

/* GET DATA with five bytes, answered with the same five. */
static void exchange(struct ends *e)
{
    uint8_t room[16];
    struct session answered;
    size_t len;
    bool le = false;

    e->waiting = e->host;
    e->busy = e->card;
    must(pivsm_wrap_command(e->waiting.bytes, e->waiting.size, &e->waiting.len, GET_DATA, P1, P2, true, data,
                            sizeof data, e->command, sizeof e->command, &len) == PIVSM_OK &&
             len == sizeof e->command,
         "a command");
    must(pivsm_unwrap_command(e->busy.bytes, e->busy.size, &e->busy.len, GET_DATA, P1, P2, e->command,
                              sizeof e->command, room, sizeof room, &len, &le) == PIVSM_OK,
         "the card's command");
    answered = e->busy;
    must(pivsm_wrap_response(answered.bytes, answered.size, &answered.len, OK_SW, data, sizeof data, e->response,
                             sizeof e->response, &len) == PIVSM_OK &&
             len == sizeof e->response,
         "a response");
}

/* The session after 65,535 commands, with chaining values of no meaning. */
static struct session at_limit(struct session s)
{
    s.bytes[COUNT + 2] = 0xff;
    s.bytes[COUNT + 3] = 0xff;
    memset(s.bytes + COMMAND_MCV, 'C', 16);
    memset(s.bytes + RESPONSE_MCV, 'R', 16);
    return s;
}

/* The session with another key for encryption: a right MAC, and no padding in what is decrypted. */
static struct session with_other_sk_enc(struct session s)
{
    s.bytes[SK_ENC] ^= 1;
    return s;
}

static struct session with_size(struct session s, size_t size, size_t len)
{
    s.size = size;
    s.len = len;
    return s;
}

/* ---- openings, and closing ---- */

static void openings(enum call call, const struct ends *e)
{
    struct request ok = {.suite = e->suite, .room = PIVSM_SESSION_SIZE}, r;

    for (int k = 0; k < 3; k++) {
        ok.input[k] = e->keys[k];
        ok.input_len[k] = e->key_len;
    }
    accepts(call, "room for a session", ok, (struct numbers){.len = PIVSM_SESSION_SIZE});
    accepts(call, "more room", with_room(ok, 200), (struct numbers){.len = PIVSM_SESSION_SIZE});
    needs(call, "less room", ok, PIVSM_SESSION_SIZE);
    for (int k = 0; k < 3; k++) {
        r = ok;
        r.input_len[k] = 0;
        refuses(call, PIVSM_BAD_KEY_LENGTH, "an empty key", r);
        r.input_len[k] = e->key_len - 1;
        refuses(call, PIVSM_BAD_KEY_LENGTH, "a short key", r);
    }
    r = ok;
    r.suite = 3;
    refuses(call, PIVSM_UNKNOWN_SUITE, "suite 3", r);
}

/* Bytes, lengths and rooms that are not a session's. */
static void unreadable_sessions(enum call call, const struct request *ok)
{
    static const char *const names[6] = {"byte 0 changed", "byte 1 changed", "byte 2 changed",
                                         "another side",   "another phase",  "another suite"};
    const struct session s = ok->session;

    refuses(call, PIVSM_BAD_SESSION, "no bytes", with_session(*ok, with_size(s, 0, 0)));
    refuses(call, PIVSM_BAD_SESSION, "no room", with_session(*ok, with_size(s, 0, 138)));
    refuses(call, PIVSM_BAD_SESSION, "room for 137 bytes", with_session(*ok, with_size(s, 137, 138)));
    refuses(call, PIVSM_BAD_SESSION, "137 bytes", with_session(*ok, with_size(s, 138, 137)));
    refuses(call, PIVSM_BAD_SESSION, "139 bytes", with_session(*ok, with_size(s, 139, 139)));
    refuses(call, PIVSM_BAD_SESSION, "a length of 2^64 - 1", with_session(*ok, with_size(s, 138, SIZE_MAX)));
    for (int i = 0; i < 6; i++) {
        struct session changed = s;

        changed.bytes[i] ^= 0x40;
        refuses(call, PIVSM_BAD_SESSION, names[i], with_session(*ok, changed));
    }
}

static void closing(const struct ends *e)
{
    struct request ok = {.session = e->waiting, .suite = e->suite};
    const struct numbers given = {.session_len = PIVSM_SESSION_SIZE};

    accepts(CLOSE, "a host that waits", ok, given);
    accepts(CLOSE, "a busy card", with_session(ok, e->busy), given);
    accepts(CLOSE, "a closed session", with_session(ok, closed(e->host)), given);
    accepts(CLOSE, "more room", with_session(ok, with_size(e->host, 200, 138)), given);
    unreadable_sessions(CLOSE, &ok);
}

/* ---- messages ---- */

static void wrapped_commands(const struct ends *e)
{
    struct request ok = {.session = e->host, .suite = e->suite, .ins = GET_DATA, .le = true, .room = 32};
    const enum call call = WRAP_COMMAND;

    ok = with_input(ok, data, sizeof data);
    accepts(call, "GET DATA", ok, (struct numbers){.session_len = 138, .len = 32});
    accepts(call, "VERIFY without data", with_input(with_command(ok, VERIFY, false), NULL, 0),
            (struct numbers){.session_len = 138, .len = 10});
    accepts(call, "2,047 bytes of data", with_room(with_input(ok, zeros, 2047), 2066),
            (struct numbers){.session_len = 138, .len = 2066});
    unreadable_sessions(call, &ok);
    refuses(call, PIVSM_SESSION_CLOSED, "a closed host", with_session(ok, closed(e->host)));
    refuses(call, PIVSM_SESSION_CLOSED, "a closed card", with_session(ok, closed(e->card)));
    refuses(call, PIVSM_OUT_OF_TURN, "a card", with_session(ok, e->card));
    refuses(call, PIVSM_OUT_OF_TURN, "a busy card", with_session(ok, e->busy));
    refuses(call, PIVSM_OUT_OF_TURN, "a host that waits", with_session(ok, e->waiting));
    refuses(call, PIVSM_NOT_PERMITTED, "SELECT", with_command(ok, SELECT, true));
    refuses(call, PIVSM_NOT_PERMITTED, "VERIFY with Le", with_command(ok, VERIFY, true));
    refuses(call, PIVSM_NOT_PERMITTED, "GET DATA without Le", with_command(ok, GET_DATA, false));
    refuses(call, PIVSM_NOT_PERMITTED, "GET DATA without data", with_input(ok, NULL, 0));
    refuses(call, PIVSM_TOO_LONG, "2,048 bytes of data", with_input(ok, zeros, 2048));
    refuses(call, PIVSM_COMMAND_LIMIT_REACHED, "after 65,535 commands", with_session(ok, at_limit(e->host)));
    needs(call, "GET DATA", ok, 32);
    needs(call, "VERIFY without data", with_input(with_command(ok, VERIFY, false), NULL, 0), 10);
}

/* The field of the first command with those arguments. */
static size_t command_field(const struct ends *e, uint8_t ins, bool le, size_t data_len, uint8_t *field)
{
    struct session host = e->host;
    size_t len;

    must(pivsm_wrap_command(host.bytes, host.size, &host.len, ins, P1, P2, le, zeros, data_len, field,
                            PIVSM_COMMAND_FIELD_MAX, &len) == PIVSM_OK,
         "another command");
    return len;
}

static void malformed_commands(const struct ends *e, const struct request *ok)
{
    uint8_t field[PIVSM_COMMAND_FIELD_MAX];
    const enum call call = UNWRAP_COMMAND;

    memcpy(field, e->command, sizeof e->command);
    field[0] = 0x86;
    refuses(call, PIVSM_MALFORMED, "another tag", with_input(*ok, field, 32));
    refuses(call, PIVSM_MALFORMED, "one byte of a field", with_input(*ok, e->command, 1));
    refuses(call, PIVSM_MALFORMED, "a field without its last byte", with_input(*ok, e->command, 31));
    refuses(call, PIVSM_MALFORMED, "'97' in VERIFY", with_command(*ok, VERIFY, false));
    refuses(call, PIVSM_MALFORMED, "'97' in CHANGE REFERENCE DATA", with_command(*ok, CHANGE_REFERENCE_DATA, false));
    refuses(call, PIVSM_MALFORMED, "2,066 zeros", with_input(*ok, zeros, 2066));
    refuses(call, PIVSM_MISSING_OBJECT, "no field", with_input(*ok, NULL, 0));
    refuses(call, PIVSM_MISSING_OBJECT, "no '8E'", with_input(*ok, e->command, 22));
    refuses(call, PIVSM_MISSING_OBJECT, "no '97'",
            with_input(*ok, field, command_field(e, GENERAL_AUTHENTICATE, false, 5, field)));
    refuses(call, PIVSM_MISSING_OBJECT, "no '87'",
            with_input(with_command(*ok, GENERAL_AUTHENTICATE, false), field,
                       command_field(e, VERIFY, false, 0, field)));
}

static void unwrapped_commands(const struct ends *e)
{
    struct request ok = {.session = e->card, .suite = e->suite, .ins = GET_DATA, .room = 16};
    uint8_t field[PIVSM_COMMAND_FIELD_MAX], forged[sizeof e->command];
    const enum call call = UNWRAP_COMMAND;

    ok = with_input(ok, e->command, sizeof e->command);
    accepts(call, "GET DATA", ok, (struct numbers){.session_len = 138, .len = 5, .le = true});
    accepts(call, "VERIFY without data",
            with_room(with_input(with_command(ok, VERIFY, false), field, command_field(e, VERIFY, false, 0, field)),
                      0),
            (struct numbers){.session_len = 138});
    accepts(call, "2,047 bytes of data",
            with_room(with_input(ok, field, command_field(e, GET_DATA, true, 2047, field)), 2048),
            (struct numbers){.session_len = 138, .len = 2047, .le = true});
    needs(call, "2,047 bytes of data", with_input(ok, field, 2066), 2048);
    unreadable_sessions(call, &ok);
    refuses(call, PIVSM_SESSION_CLOSED, "a closed card", with_session(ok, closed(e->card)));
    refuses(call, PIVSM_SESSION_CLOSED, "a closed host", with_session(ok, closed(e->host)));
    refuses(call, PIVSM_OUT_OF_TURN, "a host", with_session(ok, e->host));
    refuses(call, PIVSM_OUT_OF_TURN, "a host that waits", with_session(ok, e->waiting));
    refuses(call, PIVSM_OUT_OF_TURN, "a busy card", with_session(ok, e->busy));
    refuses(call, PIVSM_NOT_PERMITTED, "SELECT", with_command(ok, SELECT, false));
    refuses(call, PIVSM_TOO_LONG, "a field of 2,067 bytes", with_input(ok, zeros, 2067));
    refuses(call, PIVSM_COMMAND_LIMIT_REACHED, "after 65,535 commands", with_session(ok, at_limit(e->card)));
    malformed_commands(e, &ok);
    needs(call, "GET DATA", ok, 16);
    memcpy(forged, e->command, sizeof forged);
    forged[sizeof forged - 1] ^= 1;
    refuses(call, PIVSM_BAD_MAC, "the last byte changed", with_input(ok, forged, sizeof forged));
    refuses(call, PIVSM_BAD_PADDING, "another sk_enc", with_session(ok, with_other_sk_enc(e->card)));
}

static void wrapped_responses(const struct ends *e)
{
    struct request ok = {.session = e->busy, .suite = e->suite, .sw = OK_SW, .room = 33};
    const enum call call = WRAP_RESPONSE;

    ok = with_input(ok, data, sizeof data);
    accepts(call, "5 bytes of data", ok, (struct numbers){.session_len = 138, .len = 33});
    accepts(call, "no data", with_input(ok, NULL, 0), (struct numbers){.session_len = 138, .len = 14});
    accepts(call, "16,383 bytes of data", with_room(with_input(ok, zeros, 16383), 16403),
            (struct numbers){.session_len = 138, .len = 16403});
    unreadable_sessions(call, &ok);
    refuses(call, PIVSM_SESSION_CLOSED, "a closed card", with_session(ok, closed(e->card)));
    refuses(call, PIVSM_SESSION_CLOSED, "a closed host", with_session(ok, closed(e->host)));
    refuses(call, PIVSM_OUT_OF_TURN, "a host", with_session(ok, e->host));
    refuses(call, PIVSM_OUT_OF_TURN, "a host that waits", with_session(ok, e->waiting));
    refuses(call, PIVSM_OUT_OF_TURN, "a card without a command", with_session(ok, e->card));
    refuses(call, PIVSM_NOT_PERMITTED, "status 61 00", with_status(ok, 0x6100));
    refuses(call, PIVSM_TOO_LONG, "16,384 bytes of data", with_input(ok, zeros, 16384));
    needs(call, "5 bytes of data", ok, 33);
    needs(call, "no data", with_input(ok, NULL, 0), 14);
}

/* The field of the first response with so many zeros. */
static size_t response_field(const struct ends *e, size_t data_len, uint8_t *field)
{
    struct session card = e->busy;
    size_t len;

    must(pivsm_wrap_response(card.bytes, card.size, &card.len, OK_SW, zeros, data_len, field,
                             PIVSM_RESPONSE_FIELD_MAX, &len) == PIVSM_OK,
         "another response");
    return len;
}

static void malformed_responses(const struct ends *e, const struct request *ok)
{
    uint8_t field[sizeof e->response];
    const enum call call = UNWRAP_RESPONSE;

    memcpy(field, e->response, sizeof field);
    field[0] = 0x86;
    refuses(call, PIVSM_MALFORMED, "another tag", with_input(*ok, field, sizeof field));
    refuses(call, PIVSM_MALFORMED, "one byte of a field", with_input(*ok, e->response, 1));
    refuses(call, PIVSM_MALFORMED, "a field without its last byte", with_input(*ok, e->response, 32));
    refuses(call, PIVSM_MALFORMED, "another status word", with_status(*ok, 0x6982));
    refuses(call, PIVSM_MALFORMED, "16,403 zeros", with_input(*ok, zeros, 16403));
    refuses(call, PIVSM_MISSING_OBJECT, "no '8E'", with_input(*ok, e->response, 23));
    refuses(call, PIVSM_MISSING_OBJECT, "no '99'", with_input(*ok, e->response + 23, 10));
}

static void unwrapped_responses(const struct ends *e)
{
    static uint8_t field[PIVSM_RESPONSE_FIELD_MAX];
    struct request ok = {.session = e->waiting, .suite = e->suite, .sw = OK_SW, .room = 16};
    uint8_t forged[sizeof e->response];
    const enum call call = UNWRAP_RESPONSE;

    ok = with_input(ok, e->response, sizeof e->response);
    accepts(call, "5 bytes of data", ok, (struct numbers){.session_len = 138, .len = 5, .sw = OK_SW});
    accepts(call, "no data", with_room(with_input(ok, field, response_field(e, 0, field)), 0),
            (struct numbers){.session_len = 138, .sw = OK_SW});
    accepts(call, "16,383 bytes of data",
            with_room(with_input(ok, field, response_field(e, 16383, field)), 16384),
            (struct numbers){.session_len = 138, .len = 16383, .sw = OK_SW});
    unreadable_sessions(call, &ok);
    refuses(call, PIVSM_SESSION_CLOSED, "a closed host", with_session(ok, closed(e->host)));
    refuses(call, PIVSM_SESSION_CLOSED, "a closed card", with_session(ok, closed(e->card)));
    refuses(call, PIVSM_OUT_OF_TURN, "a card", with_session(ok, e->card));
    refuses(call, PIVSM_OUT_OF_TURN, "a busy card", with_session(ok, e->busy));
    refuses(call, PIVSM_OUT_OF_TURN, "a host without a command", with_session(ok, e->host));
    refuses(call, PIVSM_UNPROTECTED, "no field", with_status(with_input(ok, NULL, 0), 0x6982));
    refuses(call, PIVSM_TOO_LONG, "a field of 16,404 bytes", with_input(ok, zeros, 16404));
    malformed_responses(e, &ok);
    needs(call, "5 bytes of data", ok, 16);
    memcpy(forged, e->response, sizeof forged);
    forged[sizeof forged - 1] ^= 1;
    refuses(call, PIVSM_BAD_MAC, "the last byte changed", with_input(ok, forged, sizeof forged));
    refuses(call, PIVSM_BAD_PADDING, "another sk_enc", with_session(ok, with_other_sk_enc(e->waiting)));
}

/* ---- fragments ---- */

static void command_fragments(void)
{
    struct request ok = {.ins = GET_DATA, .room = 261}, r;
    const enum call call = FRAGMENT_COMMAND;

    ok = with_input(ok, zeros, 257);
    accepts(call, "the first of two", ok, (struct numbers){.len = 260});
    needs(call, "the first of two", ok, 260);
    ok.number = 1;
    accepts(call, "the last of two", ok, (struct numbers){.len = 8});
    needs(call, "the last of two", ok, 8);
    ok.number = 2;
    refuses(call, PIVSM_BROKEN_CHAIN, "the third of two", ok);
    ok.number = SIZE_MAX;
    refuses(call, PIVSM_BROKEN_CHAIN, "number 2^64 - 1", ok);
    ok.number = 0;
    refuses(call, PIVSM_BROKEN_CHAIN, "no field", with_input(ok, NULL, 0));
    refuses(call, PIVSM_TOO_LONG, "a field of 2,067 bytes", with_input(ok, zeros, 2067));
    r = ok;
    r.size = 256;
    refuses(call, PIVSM_FRAGMENT_TOO_LONG, "256 bytes in a fragment", r);
}

static uint64_t command_chain(uint64_t len)
{
    return len << 24 | (uint64_t)GET_DATA << 16 | P1 << 8 | P2;
}

static void command_reassemblies(void)
{
    uint8_t last[] = {0x0c, GET_DATA, P1, P2, 2, 'a', 'b', 0}, more[] = {0x1c, GET_DATA, P1, P2, 2, 'a', 'b'};
    uint8_t other[] = {0x0c, VERIFY, P1, P2, 2, 'a', 'b', 0}, plain[] = {0x00, GET_DATA, P1, P2, 2, 'a', 'b', 0};
    struct request ok = {.room = 2};
    const enum call call = REASSEMBLE_COMMAND;

    ok = with_input(ok, last, sizeof last);
    accepts(call, "a whole command", ok, (struct numbers){.len = 2, .ins = GET_DATA, .p1 = P1, .p2 = P2});
    accepts(call, "a first fragment", with_input(ok, more, sizeof more),
            (struct numbers){.len = 2, .sw = OK_SW, .chain = command_chain(2)});
    accepts(call, "a last fragment", with_room(with_chain(ok, command_chain(255)), 257),
            (struct numbers){.len = 257, .ins = GET_DATA, .p1 = P1, .p2 = P2});
    refuses(call, PIVSM_MALFORMED, "no APDU", with_input(ok, NULL, 0));
    refuses(call, PIVSM_MALFORMED, "no APDU behind 255 bytes", with_chain(with_input(ok, NULL, 0), command_chain(255)));
    refuses(call, PIVSM_MALFORMED, "an APDU without Le", with_input(ok, last, sizeof last - 1));
    refuses(call, PIVSM_MALFORMED, "CLA 00", with_input(ok, plain, sizeof plain));
    refuses(call, PIVSM_BROKEN_CHAIN, "another INS",
            with_chain(with_input(ok, other, sizeof other), command_chain(255)));
    refuses(call, PIVSM_BROKEN_CHAIN, "a chain of 2,067 bytes", with_chain(ok, command_chain(2067)));
    refuses(call, PIVSM_BROKEN_CHAIN, "a header without bytes", with_chain(ok, command_chain(0)));
    refuses(call, PIVSM_BROKEN_CHAIN, "chain 2^64 - 1", with_chain(ok, UINT64_MAX));
    refuses(call, PIVSM_TOO_LONG, "2 bytes behind 2,065", with_chain(ok, command_chain(2065)));
    needs(call, "a whole command", ok, 2);
    needs(call, "a last fragment", with_chain(ok, command_chain(255)), 257);
}

static void response_fragments(void)
{
    struct request ok = {.sw = OK_SW, .room = 258}, r;
    const enum call call = FRAGMENT_RESPONSE;

    ok = with_input(ok, zeros, 1443);
    accepts(call, "the first", ok, (struct numbers){.len = 258, .next = 256});
    needs(call, "the first", ok, 258);
    r = ok;
    r.at = 1280;
    accepts(call, "the last", r, (struct numbers){.len = 165, .next = 1443});
    needs(call, "the last", r, 165);
    r.at = 1443;
    refuses(call, PIVSM_BROKEN_CHAIN, "nothing left", r);
    r.at = SIZE_MAX;
    refuses(call, PIVSM_BROKEN_CHAIN, "at 2^64 - 1", r);
    refuses(call, PIVSM_BROKEN_CHAIN, "no field", with_input(ok, NULL, 0));
    refuses(call, PIVSM_TOO_LONG, "a field of 16,404 bytes", with_input(ok, zeros, 16404));
    refuses(call, PIVSM_NOT_PERMITTED, "status 61 00", with_status(ok, 0x6100));
}

static void response_reassemblies(void)
{
    static const uint8_t last[] = {'a', 'b', 0x90, 0x00}, more[] = {'a', 'b', 0x61, 0x10};
    struct request ok = {.room = 2};
    const enum call call = REASSEMBLE_RESPONSE;

    ok = with_input(ok, last, sizeof last);
    accepts(call, "a whole response", ok, (struct numbers){.len = 2, .sw = OK_SW});
    accepts(call, "a status word alone", with_room(with_input(ok, last + 2, 2), 0), (struct numbers){.sw = OK_SW});
    accepts(call, "a first fragment", with_input(ok, more, sizeof more),
            (struct numbers){.len = 2, .sw = 0x6110, .chain = 2});
    accepts(call, "a last fragment", with_room(with_chain(ok, 256), 258), (struct numbers){.len = 258, .sw = OK_SW});
    refuses(call, PIVSM_MALFORMED, "no fragment", with_input(ok, NULL, 0));
    refuses(call, PIVSM_MALFORMED, "no fragment behind 256 bytes", with_chain(with_input(ok, NULL, 0), 256));
    refuses(call, PIVSM_MALFORMED, "half a status word", with_input(ok, last + 2, 1));
    refuses(call, PIVSM_MALFORMED, "SW1 61 without data", with_input(ok, more + 2, 2));
    refuses(call, PIVSM_MALFORMED, "257 bytes of data", with_input(ok, zeros, 259));
    refuses(call, PIVSM_BROKEN_CHAIN, "a chain of 16,404 bytes", with_chain(ok, 16404));
    refuses(call, PIVSM_BROKEN_CHAIN, "chain 2^64 - 1", with_chain(ok, UINT64_MAX));
    refuses(call, PIVSM_TOO_LONG, "2 bytes behind 16,402", with_chain(ok, 16402));
    needs(call, "a whole response", ok, 2);
    needs(call, "a last fragment", with_chain(ok, 256), 258);
}

static void get_responses(void)
{
    struct request ok = {.room = PIVSM_GET_RESPONSE_SIZE};

    accepts(GET_RESPONSE, "room for it", ok, (struct numbers){.len = PIVSM_GET_RESPONSE_SIZE});
    needs(GET_RESPONSE, "less room", ok, PIVSM_GET_RESPONSE_SIZE);
}

/* ---- all of them ---- */

static void run_suite(uint32_t suite, size_t key_len)
{
    static struct ends e;

    open_ends(&e, suite, key_len);
    exchange(&e);
    openings(OPEN_HOST, &e);
    openings(OPEN_CARD, &e);
    closing(&e);
    wrapped_commands(&e);
    unwrapped_commands(&e);
    wrapped_responses(&e);
    unwrapped_responses(&e);
}

/* The refusals of a call that close the session, or those that do not, where no case went wrong. */
static void print_refusals(enum call call, bool closing_ones)
{
    for (const uint32_t *r = calls[call].results; *r != PIVSM_OK; r++) {
        if (closes_session(*r) == closing_ones && met[call][*r] && !failed[call][*r])
            printf(" %u", (unsigned)*r);
    }
}

static void report(enum call call)
{
    printf("%s: nothing is written at", calls[call].name);
    print_refusals(call, false);
    if (call == UNWRAP_COMMAND || call == UNWRAP_RESPONSE) {
        printf("; the session alone at");
        print_refusals(call, true);
    }
    printf("\n");
}

/* How many results no case met. */
static size_t results_not_met(enum call call)
{
    const uint32_t *r = calls[call].results;
    size_t missing = 0;

    do {
        if (!met[call][*r]) {
            fprintf(stderr, "%s, result %u: no case\n", calls[call].name, (unsigned)*r);
            missing++;
        }
    } while (*r++ != PIVSM_OK);
    return missing;
}

int main(void)
{
    size_t missing = 0;

    map_memory();
    catch_faults();
    run_suite(PIVSM_CS2, 16);
    run_suite(PIVSM_CS7, 32);
    command_fragments();
    command_reassemblies();
    response_fragments();
    response_reassemblies();
    get_responses();
    for (int call = 0; call < CALLS; call++) {
        report(call);
        missing += results_not_met(call);
    }
    printf("%zu cases, %zu wrong, %zu missing\n", cases, wrong_cases, missing);
    return fflush(stdout) == 0 && wrong_cases + missing == 0 ? 0 : 1;
}
