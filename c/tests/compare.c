/* Compares the exported calls of primitives.h, and plain_aes.c, with OpenSSL's libcrypto.
 *
 *     compare [SEED]
 *
 * All buffers of a case stand in one arena of random bytes, with random bytes around each. The arena as it
 * must be after the call is made first; then the call is made and the arena compared, the random bytes behind
 * the last buffer included. So an output
 * that is wrong, a byte written beside a buffer and an input that changed all show in the same way.
 */
#include "plain_aes.h"
#include "primitives.h"

#include <openssl/core_names.h>
#include <openssl/evp.h>
#include <openssl/params.h>

#include <stdio.h>
#include <stdlib.h>
#include <string.h>

#define LONGEST 20000
#define GUARD 32

/* Where the buffers of a case stand in the arena: BLOCK is a block or a MAC. */
enum {
    KEY = GUARD,
    IV = KEY + 64 + GUARD,
    BLOCK = IV + 64 + GUARD,
    DATA = BLOCK + 64 + GUARD,
    ARENA = DATA + LONGEST + 2 * GUARD
};

static uint8_t arena[ARENA], expected[ARENA];

static uint64_t seed = 1, state;
static unsigned long total;

/* splitmix64 */
static uint64_t next_random(void)
{
    uint64_t z = state += 0x9e3779b97f4a7c15;

    z = (z ^ z >> 30) * 0xbf58476d1ce4e5b9;
    z = (z ^ z >> 27) * 0x94d049bb133111eb;
    return z ^ z >> 31;
}

/* The case under way. */
static struct {
    const char *call;
    unsigned long number;
    size_t key_len, data_len;
    size_t other_len; /* of the IV, or of the head */
    size_t used;      /* how much of the arena matters to it */
} now;

static void begin(const char *call)
{
    now.call = call;
    now.number = 0;
}

static void end(void)
{
    printf("%-20s %6lu cases\n", now.call, now.number);
    total += now.number;
}

/* Starts a case, with fresh random bytes. */
static void fresh(size_t key_len, size_t other_len, size_t data_len)
{
    now.number++;
    now.key_len = key_len;
    now.other_len = other_len;
    now.data_len = data_len;
    now.used = DATA + data_len + 2 * GUARD;
    for (size_t i = 0; i < now.used; i += 8) {
        uint64_t r = next_random();

        memcpy(arena + i, &r, now.used - i < 8 ? now.used - i : 8);
    }
    memcpy(expected, arena, now.used);
}

static void print_case(void)
{
    printf("%s: seed %llu, case %lu (key %zu bytes, IV or head %zu, data %zu): ", now.call,
           (unsigned long long)seed, now.number, now.key_len, now.other_len, now.data_len);
}

static void print_place(size_t i, size_t data_at)
{
    if (i >= data_at)
        printf("data byte %zu", i - data_at);
    else if (i >= BLOCK)
        printf("block or MAC byte %zu", i - BLOCK);
    else if (i >= IV)
        printf("IV byte %zu", i - IV);
    else if (i >= KEY)
        printf("key byte %zu", i - KEY);
    else
        printf("a byte before the key");
}

/* Holds the call's answer and the arena to what they must be. A place past a buffer's length is beside
 * the buffer. */
static void check_at(uint32_t answer, uint32_t right, size_t data_at)
{
    if (answer != right) {
        print_case();
        printf("answers %u, not %u\n", answer, right);
        exit(1);
    }
    for (size_t i = 0; i < now.used; i++)
        if (arena[i] != expected[i]) {
            print_case();
            print_place(i, data_at);
            printf(" is %02x, not %02x\n", arena[i], expected[i]);
            exit(1);
        }
}

static void check(uint32_t answer, uint32_t right)
{
    check_at(answer, right, DATA);
}

/* ---- OpenSSL */

static void must(int ok)
{
    if (!ok) {
        fprintf(stderr, "compare: OpenSSL refused a call\n");
        exit(2);
    }
}

static void openssl_cipher(const char *mode, int encrypt, const uint8_t *key, size_t key_len, const uint8_t *iv,
                           uint8_t *data, size_t data_len)
{
    static EVP_CIPHER_CTX *ctx;
    char name[20];
    int len;
    EVP_CIPHER *cipher;

    snprintf(name, sizeof name, "AES-%zu-%s", 8 * key_len, mode);
    must((cipher = EVP_CIPHER_fetch(NULL, name, NULL)) != NULL);
    must(ctx || (ctx = EVP_CIPHER_CTX_new()) != NULL);
    must(EVP_CipherInit_ex(ctx, cipher, NULL, key, iv, encrypt));
    must(EVP_CIPHER_CTX_set_padding(ctx, 0));
    must(EVP_CipherUpdate(ctx, data, &len, data, (int)data_len));
    must((size_t)len == data_len);
    EVP_CIPHER_free(cipher);
}

static void openssl_cmac(const uint8_t *key, size_t key_len, const uint8_t *message, size_t message_len, uint8_t *mac)
{
    static EVP_MAC_CTX *ctx;
    char name[20];
    size_t len;
    OSSL_PARAM params[] = {OSSL_PARAM_utf8_string(OSSL_MAC_PARAM_CIPHER, name, 0), OSSL_PARAM_END};

    snprintf(name, sizeof name, "AES-%zu-CBC", 8 * key_len);
    must(ctx || (ctx = EVP_MAC_CTX_new(EVP_MAC_fetch(NULL, "CMAC", NULL))) != NULL);
    must(EVP_MAC_init(ctx, key, key_len, params));
    must(EVP_MAC_update(ctx, message, message_len));
    must(EVP_MAC_final(ctx, mac, &len, 16));
    must(len == 16);
}

/* ---- plain_aes.c, by calls of the same form as the exported ones */

static struct plain_aes_key *expanded(const uint8_t *key, size_t key_len)
{
    static struct plain_aes_key k;

    plain_aes_key_expansion(&k, key, key_len);
    return &k;
}

static uint32_t plain_encrypt(const uint8_t *key, size_t key_len, uint8_t *block, size_t block_len)
{
    (void)block_len;
    plain_aes_encrypt(expanded(key, key_len), block);
    return PIVSM_OK;
}

static uint32_t plain_decrypt(const uint8_t *key, size_t key_len, uint8_t *block, size_t block_len)
{
    (void)block_len;
    plain_aes_decrypt(expanded(key, key_len), block);
    return PIVSM_OK;
}

static uint32_t plain_encrypt_cbc(const uint8_t *key, size_t key_len, const uint8_t *iv, size_t iv_len,
                                  uint8_t *data, size_t data_len)
{
    (void)iv_len;
    plain_cbc_encrypt(expanded(key, key_len), iv, data, data_len);
    return PIVSM_OK;
}

static uint32_t plain_decrypt_cbc(const uint8_t *key, size_t key_len, const uint8_t *iv, size_t iv_len,
                                  uint8_t *data, size_t data_len)
{
    (void)iv_len;
    plain_cbc_decrypt(expanded(key, key_len), iv, data, data_len);
    return PIVSM_OK;
}

/* The parts of a message stand one after the other in the arena. */
static uint32_t plain_mac(const uint8_t *key, size_t key_len, const uint8_t *head, size_t head_len,
                          const uint8_t *rest, size_t rest_len, uint8_t *mac, size_t mac_len)
{
    (void)rest, (void)mac_len;
    plain_cmac(expanded(key, key_len), head, head_len + rest_len, mac);
    return PIVSM_OK;
}

/* ---- right arguments */

typedef uint32_t aes_call(const uint8_t *, size_t, uint8_t *, size_t);
typedef uint32_t cbc_call(const uint8_t *, size_t, const uint8_t *, size_t, uint8_t *, size_t);
typedef uint32_t cmac_call(const uint8_t *, size_t, const uint8_t *, size_t, const uint8_t *, size_t, uint8_t *,
                           size_t);

static void aes_cases(aes_call *call, int encrypt)
{
    for (int i = 0; i < 1000; i++)
        for (size_t key_len = 16; key_len <= 32; key_len += 16) {
            fresh(key_len, 0, 0);
            openssl_cipher("ECB", encrypt, expected + KEY, key_len, NULL, expected + BLOCK, 16);
            check(call(arena + KEY, key_len, arena + BLOCK, 16), PIVSM_OK);
        }
}

static void cbc_case(cbc_call *call, int encrypt, size_t key_len, size_t blocks)
{
    /* data at every place modulo 16 */
    size_t at = DATA + next_random() % 16;

    fresh(key_len, 16, 16 * blocks);
    openssl_cipher("CBC", encrypt, expected + KEY, key_len, expected + IV, expected + at, 16 * blocks);
    check_at(call(arena + KEY, key_len, arena + IV, 16, arena + at, 16 * blocks), PIVSM_OK, at);
}

static void cbc_cases(cbc_call *call, int encrypt)
{
    for (size_t key_len = 16; key_len <= 32; key_len += 16) {
        for (size_t blocks = 0; blocks <= 40; blocks++)
            for (int i = 0; i < 20; i++)
                cbc_case(call, encrypt, key_len, blocks);
        for (int i = 0; i < 3; i++)
            cbc_case(call, encrypt, key_len, 1024);
    }
}

static void cmac_case(cmac_call *call, size_t key_len, size_t head_len, size_t message_len)
{
    fresh(key_len, head_len, message_len);
    openssl_cmac(expected + KEY, key_len, expected + DATA, message_len, expected + BLOCK);
    check(call(arena + KEY, key_len, arena + DATA, head_len, arena + DATA + head_len, message_len - head_len,
               arena + BLOCK, 16),
          PIVSM_OK);
}

static void cmac_cases(cmac_call *call)
{
    static const size_t lengths[] = {1000, 4095, 4096, 4097, 16384, 19999, LONGEST};

    for (size_t key_len = 16; key_len <= 32; key_len += 16) {
        for (size_t len = 0; len <= 100; len++)
            for (size_t cut = 0; cut <= len; cut++)
                cmac_case(call, key_len, cut, len);
        for (size_t i = 0; i < sizeof lengths / sizeof *lengths; i++)
            for (int j = 0; j < 5; j++)
                cmac_case(call, key_len, next_random() % (lengths[i] + 1), lengths[i]);
    }
}

/* ---- wrong arguments: the answer, and that nothing changes; and (NULL, 0) for an empty buffer */

static const size_t key_lengths[] = {16, 32, 0, 15, 17, 24, 31, 33};
static const size_t block_lengths[] = {16, 0, 1, 15, 17, 32};
static const size_t data_lengths[] = {0, 16, 320, 1, 15, 17, 31, 33, 100, 321};

#define EACH(len, list) \
    for (const size_t *len = list; len < list + sizeof list / sizeof *list; len++)

static uint32_t refusal(size_t key_len, int well_formed)
{
    if (key_len != 16 && key_len != 32)
        return PIVSM_BAD_KEY_LENGTH;
    return well_formed ? PIVSM_OK : PIVSM_MALFORMED;
}

static uint8_t *buffer(size_t at, size_t len)
{
    return len ? arena + at : NULL;
}

static void aes_refusals(aes_call *call)
{
    EACH(key_len, key_lengths)
        EACH(len, block_lengths) {
            uint32_t right = refusal(*key_len, *len == 16);

            if (right == PIVSM_OK)
                continue;
            fresh(*key_len, 0, *len);
            check(call(buffer(KEY, *key_len), *key_len, buffer(DATA, *len), *len), right);
        }
}

static void cbc_refusals(cbc_call *call)
{
    EACH(key_len, key_lengths)
        EACH(iv_len, block_lengths)
            EACH(len, data_lengths) {
                uint32_t right = refusal(*key_len, *iv_len == 16 && *len % 16 == 0);

                if (right == PIVSM_OK && *len != 0)
                    continue;
                fresh(*key_len, *iv_len, *len);
                check(call(buffer(KEY, *key_len), *key_len, buffer(IV, *iv_len), *iv_len, buffer(DATA, *len), *len),
                      right);
            }
}

static void cmac_refusals(cmac_call *call)
{
    EACH(key_len, key_lengths)
        EACH(mac_len, block_lengths)
            EACH(head_len, data_lengths)
                EACH(rest_len, data_lengths) {
                    uint32_t right = refusal(*key_len, *mac_len == 16);
                    size_t len = *head_len + *rest_len;

                    fresh(*key_len, *head_len, len);
                    if (right == PIVSM_OK)
                        openssl_cmac(expected + KEY, *key_len, expected + DATA, len, expected + BLOCK);
                    check(call(buffer(KEY, *key_len), *key_len, buffer(DATA, *head_len), *head_len,
                               buffer(DATA + *head_len, *rest_len), *rest_len, buffer(BLOCK, *mac_len), *mac_len),
                          right);
                }
}

int main(int argc, char **argv)
{
    if (argc > 1)
        seed = strtoull(argv[1], NULL, 0);
    state = seed;

    begin("pivsm_aes_encrypt"), aes_cases(pivsm_aes_encrypt, 1), aes_refusals(pivsm_aes_encrypt), end();
    begin("pivsm_aes_decrypt"), aes_cases(pivsm_aes_decrypt, 0), aes_refusals(pivsm_aes_decrypt), end();
    begin("pivsm_cbc_encrypt"), cbc_cases(pivsm_cbc_encrypt, 1), cbc_refusals(pivsm_cbc_encrypt), end();
    begin("pivsm_cbc_decrypt"), cbc_cases(pivsm_cbc_decrypt, 0), cbc_refusals(pivsm_cbc_decrypt), end();
    begin("pivsm_cmac"), cmac_cases(pivsm_cmac), cmac_refusals(pivsm_cmac), end();
    begin("plain_aes_encrypt"), aes_cases(plain_encrypt, 1), end();
    begin("plain_aes_decrypt"), aes_cases(plain_decrypt, 0), end();
    begin("plain_cbc_encrypt"), cbc_cases(plain_encrypt_cbc, 1), end();
    begin("plain_cbc_decrypt"), cbc_cases(plain_decrypt_cbc, 0), end();
    begin("plain_cmac"), cmac_cases(plain_mac), end();
    printf("compare: %lu cases, 0 differences\n", total);
    return 0;
}
