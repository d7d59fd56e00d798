/* vectors.c - known answers for the reference: the examples of SP 800-38B, libcrypto's own CMAC, and the first command
 * and response of the published exchange, put together byte by byte. */
#include "reference.h"

#include <openssl/core_names.h>
#include <openssl/evp.h>
#include <openssl/params.h>
#include <stdio.h>
#include <string.h>

static const uint8_t key128[16] = {0x2b, 0x7e, 0x15, 0x16, 0x28, 0xae, 0xd2, 0xa6,
                                   0xab, 0xf7, 0x15, 0x88, 0x09, 0xcf, 0x4f, 0x3c};
static const uint8_t key256[32] = {0x60, 0x3d, 0xeb, 0x10, 0x15, 0xca, 0x71, 0xbe, 0x2b, 0x73, 0xae,
                                   0xf0, 0x85, 0x7d, 0x77, 0x81, 0x1f, 0x35, 0x2c, 0x07, 0x3b, 0x61,
                                   0x08, 0xd7, 0x2d, 0x98, 0x10, 0xa3, 0x09, 0x14, 0xdf, 0xf4};
static const uint8_t message[64] = {
    0x6b, 0xc1, 0xbe, 0xe2, 0x2e, 0x40, 0x9f, 0x96, 0xe9, 0x3d, 0x7e, 0x11, 0x73, 0x93, 0x17, 0x2a,
    0xae, 0x2d, 0x8a, 0x57, 0x1e, 0x03, 0xac, 0x9c, 0x9e, 0xb7, 0x6f, 0xac, 0x45, 0xaf, 0x8e, 0x51,
    0x30, 0xc8, 0x1c, 0x46, 0xa3, 0x5c, 0xe4, 0x11, 0xe5, 0xfb, 0xc1, 0x19, 0x1a, 0x0a, 0x52, 0xef,
    0xf6, 0x9f, 0x24, 0x45, 0xdf, 0x4f, 0x9b, 0x17, 0xad, 0x2b, 0x41, 0x7b, 0xe6, 0x6c, 0x37, 0x10};

static const struct {
    size_t key_len, len;
    const char *mac;
} examples[] = {
    {16, 0, "bb1d6929e95937287fa37d129b756746"},  {16, 16, "070a16b46b4d4144f79bdd9dd04a287c"},
    {16, 40, "dfa66747de9ae63030ca32611497c827"}, {16, 64, "51f0bebf7e3b9d92fc49741779363cfe"},
    {32, 0, "028962f61b7bf89efc6b551f4667d983"},  {32, 16, "28a7023f452e8f82bd4bf28d8c37c35c"},
    {32, 40, "aaf3d8f1de5640c232f5b169b9c911e6"}, {32, 64, "e1992190549f6ed5696a2c056c315410"},
};

static int check_example(size_t i)
{
    uint8_t mac[16];
    char text[33];
    reference_cmac(examples[i].key_len == 16 ? key128 : key256, examples[i].key_len, message, examples[i].len, mac);
    for (size_t j = 0; j < 16; j++)
        sprintf(text + 2 * j, "%02x", mac[j]);
    if (strcmp(text, examples[i].mac) == 0)
        return 0;
    printf("CMAC example %zu: %s, not %s\n", i, text, examples[i].mac);
    return 1;
}

/* libcrypto's CMAC. */
static void libcrypto_cmac(const uint8_t *key, size_t key_len, const uint8_t *bytes, size_t len, uint8_t mac[16])
{
    char cipher128[] = "AES-128-CBC", cipher256[] = "AES-256-CBC";
    OSSL_PARAM params[] = {
        OSSL_PARAM_construct_utf8_string(OSSL_MAC_PARAM_CIPHER, key_len == 16 ? cipher128 : cipher256, 0),
        OSSL_PARAM_construct_end()};
    EVP_MAC *cmac = EVP_MAC_fetch(NULL, "CMAC", NULL);
    EVP_MAC_CTX *context = EVP_MAC_CTX_new(cmac);
    size_t mac_len = 0;
    memset(mac, 0, 16);
    if (EVP_MAC_init(context, key, key_len, params) != 1 || EVP_MAC_update(context, bytes, len) != 1 ||
        EVP_MAC_final(context, mac, &mac_len, 16) != 1)
        printf("libcrypto's CMAC failed\n");
    EVP_MAC_CTX_free(context);
    EVP_MAC_free(cmac);
}

static int check_length(size_t key_len, size_t len)
{
    static uint8_t bytes[1024];
    uint8_t mine[16], theirs[16];
    for (size_t i = 0; i < len; i++)
        bytes[i] = (uint8_t)(i * 7 + len);
    reference_cmac(key256, key_len, bytes, len, mine);
    libcrypto_cmac(key256, key_len, bytes, len, theirs);
    if (memcmp(mine, theirs, 16) == 0)
        return 0;
    printf("CMAC of %zu bytes differs from libcrypto's\n", len);
    return 1;
}

/* One block: encrypt the counter, exclusive or with the text, encrypt. */
static void encrypt_block(const uint8_t *key, size_t key_len, const uint8_t counter[16], const uint8_t text[16],
                          uint8_t out[16])
{
    EVP_CIPHER_CTX *context = EVP_CIPHER_CTX_new();
    uint8_t block[16];
    int len = 0;
    EVP_EncryptInit_ex(context, key_len == 16 ? EVP_aes_128_ecb() : EVP_aes_256_ecb(), NULL, key, NULL);
    EVP_CIPHER_CTX_set_padding(context, 0);
    EVP_EncryptUpdate(context, block, &len, counter, 16);
    for (size_t i = 0; i < 16; i++)
        block[i] ^= text[i];
    EVP_EncryptUpdate(context, out, &len, block, 16);
    EVP_CIPHER_CTX_free(context);
}

/* VERIFY with the pairing code 65135275, and its response 90 00: the bytes as the publication writes them out. */
static int check_exchange(uint32_t suite, size_t key_len)
{
    static const uint8_t counter[16] = {0, 0, 0, 0, 0, 0, 0, 0, 0, 0, 0, 0, 0, 0, 0, 1};
    static const uint8_t text[16] = {0x36, 0x35, 0x31, 0x33, 0x35, 0x32, 0x37, 0x35, 0x80};
    uint8_t input[51] = {0}, answer[20] = {0}, mac[16], host[138], card[138], field[64], data[16];
    const uint8_t *enc = message, *mac_key = message + 16, *rmac = message + 32;
    size_t host_len, card_len, len;
    bool le;
    int good;
    memcpy(input + 16, "\x0C\x20\x00\x98\x80", 5);
    memcpy(input + 32, "\x87\x11\x01", 3);
    encrypt_block(enc, key_len, counter, text, input + 35);
    libcrypto_cmac(mac_key, key_len, input, 51, mac);
    reference_open_host(suite, enc, key_len, mac_key, key_len, rmac, key_len, host, 138, &host_len);
    reference_open_card(suite, enc, key_len, mac_key, key_len, rmac, key_len, card, 138, &card_len);
    good = reference_wrap_command(host, 138, &host_len, 0x20, 0x00, 0x98, false, text, 8, field, 64, &len) == 0;
    good = good && len == 0x1D && memcmp(field, input + 32, 19) == 0 && memcmp(field + 19, "\x8E\x08", 2) == 0 &&
           memcmp(field + 21, mac, 8) == 0 && memcmp(host + 106, mac, 16) == 0;
    reference_unwrap_command(card, 138, &card_len, 0x20, 0x00, 0x98, field, len, data, 16, &len, &le);
    memcpy(answer + 16, "\x99\x02\x90\x00", 4);
    libcrypto_cmac(rmac, key_len, answer, 20, mac);
    good = good && reference_wrap_response(card, 138, &card_len, 0x9000, NULL, 0, field, 64, &len) == 0 && len == 14;
    good = good && memcmp(field, "\x99\x02\x90\x00\x8E\x08", 6) == 0 && memcmp(field + 6, mac, 8) == 0;
    if (!good)
        printf("suite %u: the published exchange differs\n", (unsigned)suite);
    return !good;
}

int main(void)
{
    int failed = 0;
    for (size_t i = 0; i < sizeof examples / sizeof examples[0]; i++)
        failed += check_example(i);
    for (size_t len = 0; len <= 1000; len++)
        failed += check_length(16, len) + check_length(32, len);
    failed += check_exchange(2, 16) + check_exchange(7, 32);
    printf("vectors: %s\n", failed == 0 ? "all right" : "WRONG");
    return failed != 0;
}
