/* See ciphers.h. */
#include "ciphers.h"

#include "plain_aes.h"
#include "turns.h"

#include <gcrypt.h>
#include <nettle/aes.h>
#include <nettle/cbc.h>
#include <nettle/cmac.h>
#include <openssl/core_names.h>
#include <openssl/evp.h>
#include <openssl/params.h>

#include <stdlib.h>
#include <string.h>

static const uint8_t zero_block[16];

/* ---- plain_aes.c */

static struct plain_aes_key plain_key;

static void plain_set_key(const uint8_t *key, size_t key_len, bool decrypting)
{
    (void)decrypting;
    plain_aes_key_expansion(&plain_key, key, key_len);
}

static void plain_block(uint8_t block[16])
{
    plain_aes_encrypt(&plain_key, block);
}

static void plain_encrypt(const uint8_t iv[16], uint8_t *data, size_t len)
{
    plain_cbc_encrypt(&plain_key, iv, data, len);
}

static void plain_decrypt(const uint8_t iv[16], const uint8_t *in, uint8_t *out, size_t len)
{
    memcpy(out, in, len);
    plain_cbc_decrypt(&plain_key, iv, out, len);
}

static void plain_mac(const uint8_t *key, size_t key_len, const uint8_t first[16], const uint8_t *rest,
                      size_t rest_len, uint8_t mac[16])
{
    struct plain_aes_key k;

    plain_aes_key_expansion(&k, key, key_len);
    plain_cmac_after(&k, first, rest, rest_len, mac);
}

const struct cipher plain_cipher = {plain_set_key, plain_block, plain_encrypt, plain_decrypt, plain_mac};

/* ---- OpenSSL. A block alone is CBC with an IV of zeros, so that the key is set once for both. */

/* By the key's size: [0] for 16 bytes and [1] for 32. */
static struct {
    EVP_CIPHER *cbc[2];
    EVP_MAC_CTX *mac[2];
    EVP_CIPHER_CTX *encrypt, *decrypt;
} openssl;

static void openssl_look_up(void)
{
    EVP_MAC *cmac = EVP_MAC_fetch(NULL, "CMAC", NULL);

    openssl.encrypt = EVP_CIPHER_CTX_new();
    openssl.decrypt = EVP_CIPHER_CTX_new();
    must(cmac && openssl.encrypt && openssl.decrypt, "OpenSSL");
    for (int i = 0; i < 2; i++) {
        char *name = i ? "AES-256-CBC" : "AES-128-CBC";
        OSSL_PARAM params[] = {OSSL_PARAM_utf8_string(OSSL_MAC_PARAM_CIPHER, name, 0), OSSL_PARAM_END};

        openssl.cbc[i] = EVP_CIPHER_fetch(NULL, name, NULL);
        openssl.mac[i] = EVP_MAC_CTX_new(cmac);
        must(openssl.cbc[i] && openssl.mac[i], "OpenSSL");
        must(EVP_MAC_CTX_set_params(openssl.mac[i], params), "OpenSSL's CMAC");
    }
}

static void openssl_set_key(const uint8_t *key, size_t key_len, bool decrypting)
{
    const EVP_CIPHER *cbc;

    if (!openssl.encrypt)
        openssl_look_up();
    cbc = openssl.cbc[key_len == 32];
    must(EVP_EncryptInit_ex(openssl.encrypt, cbc, NULL, key, zero_block), "OpenSSL's AES");
    must(EVP_CIPHER_CTX_set_padding(openssl.encrypt, 0), "OpenSSL's AES");
    if (decrypting) {
        must(EVP_DecryptInit_ex(openssl.decrypt, cbc, NULL, key, zero_block), "OpenSSL's AES");
        must(EVP_CIPHER_CTX_set_padding(openssl.decrypt, 0), "OpenSSL's AES");
    }
}

static void openssl_cbc(EVP_CIPHER_CTX *ctx, const uint8_t iv[16], const uint8_t *in, uint8_t *out, size_t len)
{
    int got;

    must(EVP_CipherInit_ex(ctx, NULL, NULL, NULL, iv, -1), "OpenSSL's AES");
    must(EVP_CipherUpdate(ctx, out, &got, in, (int)len) && (size_t)got == len, "OpenSSL's AES");
}

static void openssl_block(uint8_t block[16])
{
    openssl_cbc(openssl.encrypt, zero_block, block, block, 16);
}

static void openssl_encrypt(const uint8_t iv[16], uint8_t *data, size_t len)
{
    openssl_cbc(openssl.encrypt, iv, data, data, len);
}

static void openssl_decrypt(const uint8_t iv[16], const uint8_t *in, uint8_t *out, size_t len)
{
    openssl_cbc(openssl.decrypt, iv, in, out, len);
}

static void openssl_mac(const uint8_t *key, size_t key_len, const uint8_t first[16], const uint8_t *rest,
                        size_t rest_len, uint8_t mac[16])
{
    EVP_MAC_CTX *ctx;
    size_t len;

    if (!openssl.encrypt)
        openssl_look_up();
    ctx = openssl.mac[key_len == 32];
    must(EVP_MAC_init(ctx, key, key_len, NULL) && EVP_MAC_update(ctx, first, 16), "OpenSSL's CMAC");
    must(EVP_MAC_update(ctx, rest, rest_len) && EVP_MAC_final(ctx, mac, &len, 16), "OpenSSL's CMAC");
}

const struct cipher openssl_cipher = {openssl_set_key, openssl_block, openssl_encrypt, openssl_decrypt, openssl_mac};

/* ---- Nettle */

static struct {
    bool wide;
    struct aes128_ctx encrypt128, decrypt128;
    struct aes256_ctx encrypt256, decrypt256;
} nettle;

static void nettle_set_key(const uint8_t *key, size_t key_len, bool decrypting)
{
    nettle.wide = key_len == 32;
    if (nettle.wide) {
        aes256_set_encrypt_key(&nettle.encrypt256, key);
        if (decrypting)
            aes256_invert_key(&nettle.decrypt256, &nettle.encrypt256);
    } else {
        aes128_set_encrypt_key(&nettle.encrypt128, key);
        if (decrypting)
            aes128_invert_key(&nettle.decrypt128, &nettle.encrypt128);
    }
}

static void nettle_block(uint8_t block[16])
{
    if (nettle.wide)
        aes256_encrypt(&nettle.encrypt256, 16, block, block);
    else
        aes128_encrypt(&nettle.encrypt128, 16, block, block);
}

static void nettle_encrypt(const uint8_t iv[16], uint8_t *data, size_t len)
{
    uint8_t chain[16];

    memcpy(chain, iv, 16);
    if (nettle.wide)
        cbc_aes256_encrypt(&nettle.encrypt256, chain, len, data, data);
    else
        cbc_aes128_encrypt(&nettle.encrypt128, chain, len, data, data);
}

static void nettle_decrypt(const uint8_t iv[16], const uint8_t *in, uint8_t *out, size_t len)
{
    uint8_t chain[16];

    memcpy(chain, iv, 16);
    if (nettle.wide)
        cbc_decrypt(&nettle.decrypt256, (nettle_cipher_func *)aes256_decrypt, 16, chain, len, out, in);
    else
        cbc_decrypt(&nettle.decrypt128, (nettle_cipher_func *)aes128_decrypt, 16, chain, len, out, in);
}

static void nettle_mac(const uint8_t *key, size_t key_len, const uint8_t first[16], const uint8_t *rest,
                       size_t rest_len, uint8_t mac[16])
{
    if (key_len == 32) {
        struct cmac_aes256_ctx ctx;

        cmac_aes256_set_key(&ctx, key);
        cmac_aes256_update(&ctx, 16, first);
        cmac_aes256_update(&ctx, rest_len, rest);
        cmac_aes256_digest(&ctx, 16, mac);
    } else {
        struct cmac_aes128_ctx ctx;

        cmac_aes128_set_key(&ctx, key);
        cmac_aes128_update(&ctx, 16, first);
        cmac_aes128_update(&ctx, rest_len, rest);
        cmac_aes128_digest(&ctx, 16, mac);
    }
}

const struct cipher nettle_cipher = {nettle_set_key, nettle_block, nettle_encrypt, nettle_decrypt, nettle_mac};

/* ---- libgcrypt. A block alone is CBC with an IV of zeros here too. */

static struct {
    bool ready;
    gcry_cipher_hd_t cbc[2]; /* as in OpenSSL's */
    gcry_cipher_hd_t now;
    gcry_mac_hd_t mac;
} gcrypt;

static void gcrypt_must(gcry_error_t error)
{
    must(error == 0, "libgcrypt");
}

static void gcrypt_look_up(void)
{
    const char *without = getenv(GCRYPT_WITHOUT);

    if (without)
        gcrypt_must(gcry_control(GCRYCTL_DISABLE_HWF, without, NULL));
    must(gcry_check_version(GCRYPT_VERSION) != NULL, "libgcrypt");
    gcrypt_must(gcry_control(GCRYCTL_DISABLE_SECMEM, 0));
    gcrypt_must(gcry_control(GCRYCTL_INITIALIZATION_FINISHED, 0));
    gcrypt_must(gcry_cipher_open(&gcrypt.cbc[0], GCRY_CIPHER_AES128, GCRY_CIPHER_MODE_CBC, 0));
    gcrypt_must(gcry_cipher_open(&gcrypt.cbc[1], GCRY_CIPHER_AES256, GCRY_CIPHER_MODE_CBC, 0));
    gcrypt_must(gcry_mac_open(&gcrypt.mac, GCRY_MAC_CMAC_AES, 0, NULL));
    gcrypt.ready = true;
}

static void gcrypt_set_key(const uint8_t *key, size_t key_len, bool decrypting)
{
    (void)decrypting;
    if (!gcrypt.ready)
        gcrypt_look_up();
    gcrypt.now = gcrypt.cbc[key_len == 32];
    gcrypt_must(gcry_cipher_setkey(gcrypt.now, key, key_len));
}

static void gcrypt_encrypt(const uint8_t iv[16], uint8_t *data, size_t len)
{
    gcrypt_must(gcry_cipher_setiv(gcrypt.now, iv, 16));
    gcrypt_must(gcry_cipher_encrypt(gcrypt.now, data, len, NULL, 0));
}

static void gcrypt_block(uint8_t block[16])
{
    gcrypt_encrypt(zero_block, block, 16);
}

static void gcrypt_decrypt(const uint8_t iv[16], const uint8_t *in, uint8_t *out, size_t len)
{
    gcrypt_must(gcry_cipher_setiv(gcrypt.now, iv, 16));
    gcrypt_must(gcry_cipher_decrypt(gcrypt.now, out, len, in, len));
}

static void gcrypt_mac(const uint8_t *key, size_t key_len, const uint8_t first[16], const uint8_t *rest,
                       size_t rest_len, uint8_t mac[16])
{
    size_t len = 16;

    if (!gcrypt.ready)
        gcrypt_look_up();
    gcrypt_must(gcry_mac_setkey(gcrypt.mac, key, key_len));
    gcrypt_must(gcry_mac_reset(gcrypt.mac));
    gcrypt_must(gcry_mac_write(gcrypt.mac, first, 16));
    gcrypt_must(gcry_mac_write(gcrypt.mac, rest, rest_len));
    gcrypt_must(gcry_mac_read(gcrypt.mac, mac, &len));
}

const struct cipher gcrypt_cipher = {gcrypt_set_key, gcrypt_block, gcrypt_encrypt, gcrypt_decrypt, gcrypt_mac};
