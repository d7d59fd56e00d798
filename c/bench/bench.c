/* Speed of the proved archive beside plain C and OpenSSL, in MB/s and as a ratio to plain C. turns.h says how
 * it is measured.
 */
#include "plain_aes.h"
#include "primitives.h"
#include "turns.h"

#include <openssl/core_names.h>
#include <openssl/evp.h>
#include <openssl/params.h>

#include <stdio.h>
#include <string.h>

#define DATA_LEN 16384

enum implementation { PROVED, PLAIN, AES_NI, SSSE3, TABLES, IMPLEMENTATIONS };
enum job { ONE_BLOCK, CBC_DECRYPT, CMAC, JOBS };

static const char *const implementation_names[] = {
    "proved archive", "plain C", "OpenSSL AES-NI", "OpenSSL SSSE3", "OpenSSL tables",
};
static const char *const job_names[] = {"one block, key set-up", "CBC decrypt 16 KiB", "CMAC 16 KiB"};

/* OPENSSL_ia32cap(3): bit 57 is AES-NI and 41 SSSE3, whose byte shuffle the vector-permute and the bit-sliced
 * AES need; in the second word bit 41 is VAES. */
static const char *const capabilities[IMPLEMENTATIONS] = {
    [SSSE3] = "~0x200000000000000:~0x20000000000",
    [TABLES] = "~0x200020000000000:~0x20000000000",
};

static uint8_t key[32], iv[16], mac[16], data[DATA_LEN];

static void run_proved(enum job job, size_t key_len)
{
    uint32_t result = PIVSM_OK;

    switch (job) {
    case ONE_BLOCK: result = pivsm_aes_encrypt(key, key_len, data, 16); break;
    case CBC_DECRYPT: result = pivsm_cbc_decrypt(key, key_len, iv, 16, data, DATA_LEN); break;
    default: result = pivsm_cmac(key, key_len, NULL, 0, data, DATA_LEN, mac, 16); break;
    }
    must(result == PIVSM_OK, "a call of the archive");
}

static void run_plain(enum job job, size_t key_len)
{
    struct plain_aes_key k;

    plain_aes_key_expansion(&k, key, key_len);
    switch (job) {
    case ONE_BLOCK: plain_aes_encrypt(&k, data); break;
    case CBC_DECRYPT: plain_cbc_decrypt(&k, iv, data, DATA_LEN); break;
    default: plain_cmac(&k, data, DATA_LEN, mac); break;
    }
}

/* Ciphers and contexts are looked up once and kept, as a program that cares for speed would; the key is set
 * each time, as in the others. */
static void run_openssl(enum job job, size_t key_len)
{
    static EVP_CIPHER *ciphers[2][2];
    static EVP_CIPHER_CTX *cipher_ctx;
    static EVP_MAC_CTX *mac_ctx[2];
    int wide = key_len == 32, cbc = job == CBC_DECRYPT, len;
    size_t mac_len;

    if (!cipher_ctx) {
        EVP_MAC *cmac = EVP_MAC_fetch(NULL, "CMAC", NULL);

        cipher_ctx = EVP_CIPHER_CTX_new();
        for (int i = 0; i < 2; i++) {
            char *name = i ? "AES-256-CBC" : "AES-128-CBC";
            OSSL_PARAM params[] = {OSSL_PARAM_utf8_string(OSSL_MAC_PARAM_CIPHER, name, 0), OSSL_PARAM_END};

            ciphers[i][0] = EVP_CIPHER_fetch(NULL, i ? "AES-256-ECB" : "AES-128-ECB", NULL);
            ciphers[i][1] = EVP_CIPHER_fetch(NULL, name, NULL);
            mac_ctx[i] = EVP_MAC_CTX_new(cmac);
            must(EVP_MAC_CTX_set_params(mac_ctx[i], params), "OpenSSL's CMAC");
        }
    }
    if (job == CMAC) {
        must(EVP_MAC_init(mac_ctx[wide], key, key_len, NULL), "OpenSSL's CMAC");
        must(EVP_MAC_update(mac_ctx[wide], data, DATA_LEN), "OpenSSL's CMAC");
        must(EVP_MAC_final(mac_ctx[wide], mac, &mac_len, 16), "OpenSSL's CMAC");
        return;
    }
    must(EVP_CipherInit_ex(cipher_ctx, ciphers[wide][cbc], NULL, key, iv, !cbc), "OpenSSL's AES");
    must(EVP_CIPHER_CTX_set_padding(cipher_ctx, 0), "OpenSSL's AES");
    must(EVP_CipherUpdate(cipher_ctx, data, &len, data, cbc ? DATA_LEN : 16), "OpenSSL's AES");
}

static void run(struct request r)
{
    if (r.who == PROVED)
        run_proved(r.job, r.key_len);
    else if (r.who == PLAIN)
        run_plain(r.job, r.key_len);
    else
        run_openssl(r.job, r.key_len);
}

/* MB/s of one turn. */
static double speed(struct request r)
{
    double size = r.job == ONE_BLOCK ? 16 : DATA_LEN;

    return size / seconds_per_call(run, r, r.job == ONE_BLOCK ? 100 : 4) / 1e6;
}

int main(int argc, char **argv)
{
    static double best[JOBS][2][IMPLEMENTATIONS];
    struct process processes[IMPLEMENTATIONS];

    if (argc > 1 && strcmp(argv[1], "serve") == 0) {
        serve(speed);
        return 0;
    }
    for (int who = 0; who < IMPLEMENTATIONS; who++)
        if (capabilities[who])
            processes[who] = start("OPENSSL_ia32cap", capabilities[who]);
    for (int i = 0; i < TURNS; i++)
        for (int job = 0; job < JOBS; job++)
            for (int wide = 0; wide < 2; wide++)
                for (int who = 0; who < IMPLEMENTATIONS; who++) {
                    struct request r = {who, job, wide ? 32 : 16};
                    double now = capabilities[who] ? ask(processes[who], r) : speed(r);

                    if (now > best[job][wide][who])
                        best[job][wide][who] = now;
                }

    printf("MB/s, the best of %d turns, and the ratio to plain C\n\n%30s", TURNS, "");
    for (int who = 0; who < IMPLEMENTATIONS; who++)
        printf(" %16s", implementation_names[who]);
    printf("\n");
    for (int job = 0; job < JOBS; job++)
        for (int wide = 0; wide < 2; wide++) {
            printf("AES-%d %-22s", wide ? 256 : 128, job_names[job]);
            for (int who = 0; who < IMPLEMENTATIONS; who++)
                printf(" %9.1f %6.2f", best[job][wide][who], best[job][wide][who] / best[job][wide][PLAIN]);
            printf("\n");
        }
    return 0;
}
