/* forge.c - fields whose MAC is right while their structure or padding is not. */
#include "cases.h"

#include "reference.h"

#include <string.h>

enum form { SHORTEST, LONGER, LONGEST, FOUR_BYTES, INDEFINITE, FORMS };

struct item {
    uint8_t tag;
    enum form form;
    const uint8_t *value;
    size_t len;
};

enum { ITEMS = 8 };

struct plan {
    struct item items[ITEMS];
    size_t count;
};

/* ---- Writing objects ---- */

static void put(struct room *f, uint8_t byte)
{
    f->bytes[f->len++] = byte;
}

static void put_length(struct room *f, enum form form, size_t len)
{
    size_t shortest = len < 128 ? 0 : len < 256 ? 1 : 2, follow = shortest;
    if (form == INDEFINITE) {
        put(f, 0x80);
        return;
    }
    if (form == LONGER)
        follow = shortest + 1;
    if (form == LONGEST)
        follow = shortest < 2 ? 2 : 3;
    if (form == FOUR_BYTES)
        follow = 4;
    if (follow > 0)
        put(f, (uint8_t)(0x80 + follow));
    for (size_t i = follow == 0 ? 1 : follow; i > 0; i--)
        put(f, (uint8_t)(i > 2 ? 0 : len >> 8 * (i - 1)));
}

static void put_item(struct room *f, const struct item *item)
{
    put(f, item->tag);
    put_length(f, item->form, item->len);
    memcpy(f->bytes + f->len, item->value, item->len);
    f->len += item->len;
}

/* ---- Encrypted data ---- */

/* Fill E bytes so that the last block has right padding, or in one of the wrong ways. */
static void draw_padded(uint8_t *padded, size_t e)
{
    uint8_t *last = padded + e - 16;
    size_t at = e == 16 ? 1 + draw_below(15) : draw_below(16);
    bool flawed = one_in(3);
    draw_bytes(padded, e);
    memset(last + at, 0, 16 - at);
    last[at] = 0x80;
    if (!flawed)
        return;
    switch (draw_below(5)) {
    case 0: /* no padding byte at all; '80' may stand in the block before */
        memset(last, 0, 16);
        if (e > 16)
            last[-1] = 0x80;
        break;
    case 1: /* another padding byte */
        last[at] = (uint8_t)(0x81 + draw_below(127));
        break;
    case 2:
        last[at] = (uint8_t)(1 + draw_below(127));
        break;
    case 3: /* something behind '80', which need not be wrong by chance, but mostly is */
        last[15] = (uint8_t)draw();
        break;
    default: /* nothing but padding: wrong where it is the only block */
        memset(last, 0, 16);
        last[0] = 0x80;
    }
}

static size_t draw_ciphertext_length(bool response)
{
    static const size_t lines[] = {16, 16, 16, 32, 48, 96, 112, 128, 224, 240, 256, 272};
    static const size_t command_ends[] = {2032, 2048, 2064};
    static const size_t response_ends[] = {16368, 16384, 16400};
    if (response)
        return one_in(160) ? DRAW_FROM(response_ends) : DRAW_FROM(lines);
    return one_in(24) ? DRAW_FROM(command_ends) : DRAW_FROM(lines);
}

/* ---- Plans ---- */

static void add_item(struct plan *plan, uint8_t tag, const uint8_t *value, size_t len)
{
    struct item item = {tag, SHORTEST, value, len};
    plan->items[plan->count++] = item;
}

/* Which objects an honest end sends; each is at times left out or added. */
static void plan_objects(struct plan *plan, bool response, uint8_t ins, const uint8_t *status,
                         const uint8_t *encrypted, size_t encrypted_len, const uint8_t *tag)
{
    static const uint8_t le[1] = {0x00};
    bool first = response || ins == VERIFY ? one_in(2) : true;
    bool middle = response || ins == GET_DATA || (ins == GENERAL_AUTHENTICATE && one_in(2));
    plan->count = 0;
    if (first != one_in(8))
        add_item(plan, 0x87, encrypted, encrypted_len);
    if (middle != one_in(8))
        add_item(plan, response ? 0x99 : 0x97, response ? status : le, response ? 2 : 1);
    if (!one_in(16))
        add_item(plan, 0x8E, tag, 8);
}

/* Exchange, double or insert whole objects. */
static void break_order(struct plan *plan, bool response)
{
    static const uint8_t foreign[] = {0x53, 0x81, 0x85, 0x86, 0x88, 0x8F, 0x00, 0xFF};
    static const struct item others[2] = {{0x99, SHORTEST, (const uint8_t *)"\x90\x00", 2},
                                          {0x97, SHORTEST, (const uint8_t *)"\x00", 1}};
    size_t one = draw_below(plan->count), other = draw_below(plan->count);
    struct item item = plan->items[one];
    switch (draw_below(3)) {
    case 0:
        plan->items[one] = plan->items[other];
        plan->items[other] = item;
        return;
    case 1: /* double it: beside itself, or at the end */
        if (one_in(2))
            other = plan->count;
        break;
    default: /* one of the other direction, or of none */
        if (one_in(2))
            item = others[response];
        else
            item.tag = foreign[draw_below(sizeof foreign)];
    }
    memmove(plan->items + other + 1, plan->items + other, (plan->count - other) * sizeof item);
    plan->items[other] = item;
    plan->count++;
}

/* Break the form of one object. */
static void break_form(struct plan *plan)
{
    static uint8_t value[LENT_MAX];
    struct item *item = &plan->items[draw_below(plan->count)];
    memcpy(value, item->value, item->len);
    item->value = value;
    switch (draw_below(4)) {
    case 0:
        item->form = (enum form)(1 + draw_below(FORMS - 1));
        break;
    case 1: /* longer or shorter by little */
        value[item->len] = 0x00;
        item->len = one_in(2) ? item->len + 1 : item->len - 1;
        break;
    case 2:
        item->len = draw_below(item->len + 1);
        break;
    default: /* the padding indicator, the value of '97', a status, a tag */
        value[0] ^= one_in(2) ? 0x01 : (uint8_t)(1 + draw_below(255));
    }
}

/* Bytes too many or too few at the end. */
static void break_end(struct room *f)
{
    size_t n = 1 + draw_below(one_in(2) ? 3 : 12);
    if (one_in(2)) {
        draw_bytes(f->bytes + f->len, n);
        f->len += n;
    } else {
        f->len = n > f->len ? 0 : f->len - n;
    }
}

/* Write the planned objects; each '8E' gets the MAC over what stands before it. */
static void write_plan(struct room *f, struct plan *plan, const struct saved *receiver, bool response,
                       struct header h)
{
    uint8_t mac[16];
    f->len = 0;
    for (size_t i = 0; i < plan->count; i++) {
        struct item *item = &plan->items[i];
        if (item->tag == 0x8E && item->len <= 16) {
            reference_forge_mac(receiver->bytes, response, h.ins, h.p1, h.p2, f->bytes, f->len, mac);
            if (one_in(12))
                mac[draw_below(10)] ^= (uint8_t)(1 << draw_below(8)); /* the last two are not sent */
            item->value = mac;
        }
        put_item(f, item);
    }
}

struct forged forge_field(const struct saved *receiver, bool response, struct header h, uint16_t sw)
{
    static struct room field;
    static uint8_t padded[LENT_MAX], encrypted[LENT_MAX];
    static const uint8_t no_tag[16];
    const uint8_t status[2] = {(uint8_t)(sw >> 8), (uint8_t)sw};
    struct forged made = {&field, draw_ciphertext_length(response)};
    struct plan plan;
    size_t flaw = draw_below(8);
    draw_padded(padded, made.ciphertext);
    encrypted[0] = 0x01;
    reference_forge_ciphertext(receiver->bytes, response, padded, made.ciphertext, encrypted + 1);
    plan_objects(&plan, response, h.ins, status, encrypted, 1 + made.ciphertext, no_tag);
    if (flaw <= 1 && plan.count > 0)
        break_order(&plan, response);
    if ((flaw == 1 || flaw == 2) && plan.count > 0)
        break_form(&plan);
    write_plan(&field, &plan, receiver, response, h);
    if (flaw == 3)
        break_end(&field);
    if (plan.count == 0 || plan.items[0].tag != 0x87)
        made.ciphertext = 0;
    return made;
}
