/* buffers.c - see buffers.h. */
#include "buffers.h"

#include <inttypes.h>
#include <stdio.h>
#include <stdlib.h>
#include <string.h>

/* ---- Random numbers ---- */

static struct {
    uint64_t seed;
    uint64_t number;
    uint64_t state;
} now;

/* splitmix64. */
uint64_t draw(void)
{
    uint64_t z = now.state += UINT64_C(0x9E3779B97F4A7C15);
    z = (z ^ z >> 30) * UINT64_C(0xBF58476D1CE4E5B9);
    z = (z ^ z >> 27) * UINT64_C(0x94D049BB133111EB);
    return z ^ z >> 31;
}

void start_case(uint64_t seed, uint64_t number)
{
    now.seed = seed;
    now.number = number;
    now.state = seed;
    now.state = draw() ^ number * UINT64_C(0xD1342543DE82EF95);
    now.state = draw();
}

uint64_t case_number(void)
{
    return now.number;
}

size_t draw_below(size_t limit)
{
    return (size_t)(draw() % limit);
}

bool one_in(size_t n)
{
    return draw_below(n) == 0;
}

void draw_bytes(uint8_t *bytes, size_t len)
{
    while (len > 0) {
        uint64_t word = draw();
        size_t n = len < sizeof word ? len : sizeof word;
        memcpy(bytes, &word, n);
        bytes += n;
        len -= n;
    }
}

size_t draw_from(const size_t *list, size_t count)
{
    return list[draw_below(count)];
}

/* ---- Mismatches ---- */

static void report(const char *call, const char *what)
{
    printf("MISMATCH: seed %" PRIu64 ", case %" PRIu64 ", %s: %s", now.seed, now.number, call, what);
}

static void stop(void)
{
    printf("repeat with: differential 1 %" PRIu64 " %" PRIu64 "\n", now.seed, now.number);
    exit(1);
}

void mismatch(const char *call, const char *what, uint64_t library, uint64_t reference)
{
    report(call, what);
    printf(": library %" PRIu64 " (0x%" PRIx64 "), reference %" PRIu64 " (0x%" PRIx64 ")\n", library, library,
           reference, reference);
    stop();
}

void unexpected(const char *what, uint64_t given, uint64_t wanted)
{
    printf("UNEXPECTED: seed %" PRIu64 ", case %" PRIu64 ", %s: both %" PRIu64 ", not %" PRIu64 "\n", now.seed,
           now.number, what, given, wanted);
    stop();
}

void compare_number(const char *call, const char *what, uint64_t library, uint64_t reference)
{
    if (library != reference)
        mismatch(call, what, library, reference);
}

static void mismatch_at(const char *call, const char *name, const char *what, size_t at, uint8_t one, uint8_t other)
{
    report(call, name);
    printf(" %s, byte %zu: 0x%02X and 0x%02X\n", what, at, one, other);
    stop();
}

static size_t first_difference(const uint8_t *one, const uint8_t *other, size_t len)
{
    size_t i = 0;
    while (i < len && one[i] == other[i])
        i++;
    return i;
}

static void compare_bytes(const char *call, const char *name, const char *what, const uint8_t *one,
                          const uint8_t *other, size_t len)
{
    size_t at;
    if (len == 0 || memcmp(one, other, len) == 0)
        return;
    at = first_difference(one, other, len);
    mismatch_at(call, name, what, at, one[at], other[at]);
}

/* ---- Lent buffers ---- */

enum { CANARY = 32, SLOTS = 6, LIBRARY_CANARY = 0xC5, REFERENCE_CANARY = 0x3A };

struct slot {
    struct lent lent;
    uint8_t library[CANARY + LENT_MAX + CANARY];
    uint8_t reference[CANARY + LENT_MAX + CANARY];
    uint8_t before[LENT_MAX];
};

static struct slot slots[SLOTS];
static size_t slots_used;

void lend_none(void)
{
    slots_used = 0;
}

/* With the address sanitizer, no code may so much as read a canary while a call runs. */
#ifdef __SANITIZE_ADDRESS__
#include <sanitizer/asan_interface.h>
#else
#define ASAN_POISON_MEMORY_REGION(at, size) ((void)(at), (void)(size))
#define ASAN_UNPOISON_MEMORY_REGION(at, size) ((void)(at), (void)(size))
#endif

static void fill_copy(uint8_t *memory, uint8_t canary, const uint8_t *bytes, size_t size)
{
    ASAN_UNPOISON_MEMORY_REGION(memory, LENT_MAX + 2 * CANARY);
    memset(memory, canary, CANARY);
    if (size > 0)
        memcpy(memory + CANARY, bytes, size);
    memset(memory + CANARY + size, canary, CANARY);
    ASAN_POISON_MEMORY_REGION(memory, CANARY);
    ASAN_POISON_MEMORY_REGION(memory + CANARY + size, LENT_MAX - size + CANARY);
}

static struct lent *lend(const char *name, const uint8_t *bytes, size_t size, bool written)
{
    struct slot *s = &slots[slots_used++];
    if (slots_used > SLOTS || size > LENT_MAX) {
        fprintf(stderr, "no room to lend %s\n", name);
        exit(2);
    }
    fill_copy(s->library, LIBRARY_CANARY, bytes, size);
    fill_copy(s->reference, REFERENCE_CANARY, bytes, size);
    if (size > 0)
        memcpy(s->before, bytes, size);
    s->lent.name = name;
    s->lent.written = written;
    s->lent.size = size;
    s->lent.before = s->before;
    s->lent.library = s->library + CANARY;
    s->lent.reference = s->reference + CANARY;
    if (size == 0 && one_in(2))
        s->lent.library = s->lent.reference = NULL;
    return &s->lent;
}

struct lent *lend_input(const char *name, const uint8_t *bytes, size_t size)
{
    return lend(name, bytes, size, false);
}

struct lent *lend_output(const char *name, const uint8_t *bytes, size_t size)
{
    return lend(name, bytes, size, true);
}

static void check_canary(const char *call, const char *name, const uint8_t *at, uint8_t canary, const char *where)
{
    for (size_t i = 0; i < CANARY; i++) {
        if (at[i] != canary)
            mismatch_at(call, name, where, i, at[i], canary);
    }
}

static void compare_slot(const char *call, const struct slot *s)
{
    const struct lent *l = &s->lent;
    const uint8_t *library = s->library + CANARY, *reference = s->reference + CANARY;
    ASAN_UNPOISON_MEMORY_REGION(s->library, sizeof s->library);
    ASAN_UNPOISON_MEMORY_REGION(s->reference, sizeof s->reference);
    check_canary(call, l->name, s->library, LIBRARY_CANARY, "canary before the library's copy");
    check_canary(call, l->name, library + l->size, LIBRARY_CANARY, "canary behind the library's copy");
    check_canary(call, l->name, s->reference, REFERENCE_CANARY, "canary before the reference's copy");
    check_canary(call, l->name, reference + l->size, REFERENCE_CANARY, "canary behind the reference's copy");
    compare_bytes(call, l->name, "of library and reference", library, reference, l->size);
    if (!l->written)
        compare_bytes(call, l->name, "(const) after and before", library, s->before, l->size);
}

void compare_lent(const char *call)
{
    for (size_t i = 0; i < slots_used; i++)
        compare_slot(call, &slots[i]);
}

void check_unwritten(const char *call, const struct lent *l, size_t from)
{
    if (l->size > from)
        compare_bytes(call, l->name, "not to be written, after and before", l->library + from, l->before + from,
                      l->size - from);
}

void take_back(const struct lent *l, uint8_t *bytes)
{
    if (l->size > 0)
        memcpy(bytes, l->library, l->size);
}
