/* Speed of whole messages: the proved archive beside plain C and three libraries, in microseconds and as a
 * ratio to plain C. turns.h says how it is measured.
 *
 * The two jobs are a host's: to unwrap the longest response and to wrap a GET DATA. A call begins with the
 * bytes of a saved session and sets up every key that it uses. Before anything is measured, all implementations
 * must give the same results.
 */
#include "ciphers.h"
#include "pivsm.h"
#include "plain_message.h"
#include "turns.h"

#include <stdio.h>
#include <string.h>

enum { PROVED, PLAIN, IMPLEMENTATIONS = 10 };
enum { UNWRAP, WRAP, JOBS, COMPARE };

/* Those with a variable run in a process of their own. OPENSSL_ia32cap is explained in bench.c; Nettle, told
 * that there are no features, uses tables. */
static const struct {
    const char *name;
    const struct cipher *cipher;
    const char *variable, *value;
} implementations[IMPLEMENTATIONS] = {
    [PROVED] = {"proved archive", NULL, NULL, NULL},
    [PLAIN] = {"plain C", &plain_cipher, NULL, NULL},
    {"OpenSSL AES-NI", &openssl_cipher, NULL, NULL},
    {"OpenSSL SSSE3", &openssl_cipher, "OPENSSL_ia32cap", "~0x200000000000000:~0x20000000000"},
    {"OpenSSL tables", &openssl_cipher, "OPENSSL_ia32cap", "~0x200020000000000:~0x20000000000"},
    {"Nettle AES-NI", &nettle_cipher, NULL, NULL},
    {"Nettle tables", &nettle_cipher, "NETTLE_FAT_OVERRIDE", "none"},
    {"libgcrypt AES-NI", &gcrypt_cipher, NULL, NULL},
    {"libgcrypt SSSE3", &gcrypt_cipher, GCRYPT_WITHOUT, "intel-aesni"},
    {"libgcrypt tables", &gcrypt_cipher, GCRYPT_WITHOUT, "all"},
};

/* ---- what is wrapped and unwrapped */

#define COUNT 0x1234
#define ROOM (LONGEST_RESPONSE + 1)

/* By suite: CS2, CS7. */
static struct {
    uint8_t ready[SAVED_SESSION], waiting[SAVED_SESSION];
    uint8_t field[LONGEST_RESPONSE_FIELD];
} inputs[2];

static uint8_t certificate[LONGEST_RESPONSE];

static const uint8_t tag_list[] = {0x5c, 0x03, 0x5f, 0xc1, 0x05};

/* A host's saved session, with bytes of no meaning for keys and chaining values. */
static void make_session(uint8_t session[SAVED_SESSION], int wide, uint8_t phase)
{
    const uint8_t head[10] = {0x00, 0x88, 0x01, 0, phase, wide ? 7 : 2, 0, 0, COUNT >> 8, COUNT & 0xff};

    memcpy(session, head, 10);
    for (int i = 10; i < SAVED_SESSION; i++) {
        bool key = i < 106, used = wide || (i - 10) % 32 < 16;

        session[i] = key && !used ? 0 : (uint8_t)(i * i + 29 * i + 11);
    }
}

static void make_inputs(void)
{
    for (size_t i = 0; i < sizeof certificate; i++)
        certificate[i] = (uint8_t)(7 * i + 3);
    for (int wide = 0; wide < 2; wide++) {
        uint8_t card[SAVED_SESSION], next[16];

        make_session(inputs[wide].ready, wide, 0);
        make_session(inputs[wide].waiting, wide, 1);
        make_session(card, wide, 1);
        card[3] = 1;
        must(plain_wrap_response(&plain_cipher, card, sizeof card, 0x90, 0x00, certificate, sizeof certificate,
                                 inputs[wide].field, LONGEST_RESPONSE_FIELD, next) == LONGEST_RESPONSE_FIELD,
             "the card's wrap");
    }
}

/* ---- the jobs: the length of what was made, 0 if refused, and the direction's next chaining value. The archive
 * writes the next session in the place of the one that it was lent, so each call gets a copy. */

#define COMMAND_MCV 106
#define RESPONSE_MCV 122

static uint32_t proved_wrap(int wide, uint8_t *field, size_t field_size, uint8_t next[16])
{
    uint8_t session[PIVSM_SESSION_SIZE];
    size_t session_len = sizeof session, len;

    memcpy(session, inputs[wide].ready, sizeof session);
    if (pivsm_wrap_command(session, sizeof session, &session_len, 0xcb, 0x3f, 0xff, true, tag_list, sizeof tag_list,
                           field, field_size, &len) != PIVSM_OK)
        return 0;
    memcpy(next, session + COMMAND_MCV, 16);
    return (uint32_t)len;
}

static uint32_t proved_unwrap(int wide, const uint8_t *field, uint8_t *data, size_t data_size, uint8_t next[16])
{
    uint8_t session[PIVSM_SESSION_SIZE];
    size_t session_len = sizeof session, len;
    uint16_t sw;

    memcpy(session, inputs[wide].waiting, sizeof session);
    if (pivsm_unwrap_response(session, sizeof session, &session_len, 0x9000, field, LONGEST_RESPONSE_FIELD, data,
                              data_size, &len, &sw) != PIVSM_OK)
        return 0;
    memcpy(next, session + RESPONSE_MCV, 16);
    return (uint32_t)len;
}

static uint32_t wrap(int who, int wide, uint8_t *field, size_t field_size, uint8_t next[16])
{
    if (who == PROVED)
        return proved_wrap(wide, field, field_size, next);
    return plain_wrap_command(implementations[who].cipher, inputs[wide].ready, SAVED_SESSION, 0xcb, 0x3f, 0xff, true,
                              tag_list, sizeof tag_list, field, field_size, next);
}

static uint32_t unwrap(int who, int wide, const uint8_t *field, uint8_t *data, size_t data_size, uint8_t next[16])
{
    if (who == PROVED)
        return proved_unwrap(wide, field, data, data_size, next);
    return plain_unwrap_response(implementations[who].cipher, inputs[wide].waiting, SAVED_SESSION, field,
                                 LONGEST_RESPONSE_FIELD, 0x90, 0x00, data, data_size, next);
}

static void run(struct request r)
{
    static uint8_t out[ROOM], next[16];
    int wide = r.key_len == 32;

    if (r.job == WRAP)
        must(wrap(r.who, wide, out, LONGEST_COMMAND_FIELD, next) == 32, "a wrap");
    else
        must(unwrap(r.who, wide, inputs[wide].field, out, ROOM, next) == LONGEST_RESPONSE, "an unwrap");
}

/* ---- the comparison */

/* What a job gives: the whole of the lent output, bytes that it doesn't write included. */
struct result {
    uint32_t len;
    uint8_t next[16], out[ROOM];
};

static void blank(struct result *result)
{
    memset(result, 0xa5, sizeof *result);
}

static void compare_one(int who, int wide, const struct result *mine, const struct result *right, const char *job)
{
    bool same = mine->len == right->len && memcmp(mine->out, right->out, ROOM) == 0 &&
                memcmp(mine->next, right->next, 16) == 0;

    if (!same)
        fprintf(stderr, "bench: %s, CS%d, %s: differs\n", implementations[who].name, wide ? 7 : 2, job);
    must(same, "the comparison");
}

/* Wraps, unwraps, and unwraps with a bit of the tag changed; each is compared with plain C, and the data with
 * what the card wrapped. */
static void compare(int who, int wide)
{
    static struct result mine, right;
    static uint8_t damaged[LONGEST_RESPONSE_FIELD];

    blank(&mine), blank(&right);
    mine.len = wrap(who, wide, mine.out, LONGEST_COMMAND_FIELD, mine.next);
    right.len = wrap(PLAIN, wide, right.out, LONGEST_COMMAND_FIELD, right.next);
    compare_one(who, wide, &mine, &right, "wrap");

    blank(&mine), blank(&right);
    mine.len = unwrap(who, wide, inputs[wide].field, mine.out, ROOM, mine.next);
    right.len = unwrap(PLAIN, wide, inputs[wide].field, right.out, ROOM, right.next);
    compare_one(who, wide, &mine, &right, "unwrap");
    must(right.len == LONGEST_RESPONSE && memcmp(right.out, certificate, LONGEST_RESPONSE) == 0, "an unwrap");

    memcpy(damaged, inputs[wide].field, sizeof damaged);
    damaged[sizeof damaged - 1] ^= 1;
    blank(&mine), blank(&right);
    mine.len = unwrap(who, wide, damaged, mine.out, ROOM, mine.next);
    right.len = 0;
    compare_one(who, wide, &mine, &right, "unwrap of a damaged field");
}

/* ---- measuring */

/* Microseconds of one call in this turn; 0 for a comparison. */
static double measure(struct request r)
{
    if (r.job == COMPARE) {
        for (int wide = 0; wide < 2; wide++)
            compare(r.who, wide);
        return 0;
    }
    return 1e6 * seconds_per_call(run, r, r.job == WRAP ? 50 : 4);
}

static double measure_there(struct process p, struct request r)
{
    return implementations[r.who].variable ? ask(p, r) : measure(r);
}

static void print(double best[JOBS][2][IMPLEMENTATIONS])
{
    printf("Microseconds, the best of %d turns, and the speed as a ratio to plain C\n\n", TURNS);
    printf("%-18s %36s %36s\n", "", "unwrap the longest response", "wrap a GET DATA");
    printf("%-18s %18s%18s %18s%18s\n", "", "CS2", "CS7", "CS2", "CS7");
    for (int who = 0; who < IMPLEMENTATIONS; who++) {
        printf("%-18s", implementations[who].name);
        for (int job = 0; job < JOBS; job++) {
            printf(" ");
            for (int wide = 0; wide < 2; wide++)
                printf("%11.2f %6.2f", best[job][wide][who], best[job][wide][PLAIN] / best[job][wide][who]);
        }
        printf("\n");
    }
}

int main(int argc, char **argv)
{
    static double best[JOBS][2][IMPLEMENTATIONS];
    static struct process processes[IMPLEMENTATIONS];

    make_inputs();
    if (argc > 1 && strcmp(argv[1], "serve") == 0) {
        serve(measure);
        return 0;
    }
    for (int who = 0; who < IMPLEMENTATIONS; who++) {
        if (implementations[who].variable)
            processes[who] = start(implementations[who].variable, implementations[who].value);
        measure_there(processes[who], (struct request){who, COMPARE, 0});
    }
    for (int i = 0; i < TURNS; i++)
        for (int job = 0; job < JOBS; job++)
            for (int wide = 0; wide < 2; wide++)
                for (int who = 0; who < IMPLEMENTATIONS; who++) {
                    struct request r = {who, job, wide ? 32 : 16};
                    double now = measure_there(processes[who], r);

                    if (i == 0 || now < best[job][wide][who])
                        best[job][wide][who] = now;
                }
    print(best);
    return 0;
}
