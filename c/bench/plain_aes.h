/* AES-128 and AES-256 in plain C, with CBC and CMAC: the yardstick of the benchmarks. It works byte by byte from
 * the standards' tables and products; the caller gives right lengths. Not constant-time. */
#ifndef PLAIN_AES_H
#define PLAIN_AES_H

#include <stddef.h>
#include <stdint.h>

struct plain_aes_key {
    int rounds;     /* Nr: 10 or 14 */
    uint8_t w[240]; /* the key schedule, 16 bytes a round key */
};

/* key_len: 16 or 32 */
void plain_aes_key_expansion(struct plain_aes_key *k, const uint8_t *key, size_t key_len);

void plain_aes_encrypt(const struct plain_aes_key *k, uint8_t block[16]);
void plain_aes_decrypt(const struct plain_aes_key *k, uint8_t block[16]);

/* data_len: a multiple of 16 */
void plain_cbc_encrypt(const struct plain_aes_key *k, const uint8_t iv[16], uint8_t *data, size_t data_len);
void plain_cbc_decrypt(const struct plain_aes_key *k, const uint8_t iv[16], uint8_t *data, size_t data_len);

void plain_cmac(const struct plain_aes_key *k, const uint8_t *message, size_t message_len, uint8_t mac[16]);

/* The message is a first block and the rest, at least a byte. */
void plain_cmac_after(const struct plain_aes_key *k, const uint8_t first[16], const uint8_t *rest, size_t rest_len,
                      uint8_t mac[16]);

#endif
