/* AES, CBC and CMAC, for keys of 16 and of 32 bytes (AES-128 and AES-256).
 *
 *     uint8_t enc_key[16], mac_key[16], iv[16], data[160], mac[16];
 *     ...
 *     if (pivsm_cbc_encrypt(enc_key, sizeof enc_key, iv, sizeof iv, data, sizeof data) != PIVSM_OK)
 *         return -1;
 *     if (pivsm_cmac(mac_key, sizeof mac_key, iv, sizeof iv, data, sizeof data, mac, sizeof mac) != PIVSM_OK)
 *         return -1;
 *
 * Each call takes its key as bytes and expands it anew. Nothing is kept between calls and nothing is
 * allocated, so threads may call at the same time.
 *
 * Buffers
 *   A buffer is a pointer and its length in bytes. (NULL, 0) is an empty buffer; with any other length
 *   the pointer must be to that many bytes. A buffer that is written may not overlap another one of the
 *   same call; buffers that are only read may.
 *
 * Results
 *   PIVSM_OK              0   done
 *   PIVSM_MALFORMED       7   a block, IV or MAC buffer is not of 16 bytes, or the data is not a whole
 *                             number of blocks
 *   PIVSM_BAD_KEY_LENGTH 12   the key has neither 16 nor 32 bytes
 *
 *   A call that could refuse for both reasons returns PIVSM_BAD_KEY_LENGTH. A call that refuses has
 *   written nothing; a call that is done has written its output buffer and nothing else.
 *
 * Not promised
 *   The S-box is a table, so the time of a call depends on the key and the data: someone who can measure
 *   the processor's cache may learn them. The expanded key is not wiped from the stack. CBC and the block
 *   cipher alone protect no integrity.
 */
#ifndef PIVSM_PRIMITIVES_H
#define PIVSM_PRIMITIVES_H

#include <stddef.h>
#include <stdint.h>

#ifdef __cplusplus
extern "C" {
#endif

#define PIVSM_OK 0
#define PIVSM_MALFORMED 7
#define PIVSM_BAD_KEY_LENGTH 12

#define PIVSM_BLOCK_SIZE 16

/* Encrypt one block in place (FIPS 197, 5.1).
 *
 *   key       in       16 or 32 bytes
 *   block     in, out  the plaintext, then the ciphertext, PIVSM_BLOCK_SIZE bytes
 *
 * Returns the first that applies:
 *   PIVSM_BAD_KEY_LENGTH
 *   PIVSM_MALFORMED         block_len is not PIVSM_BLOCK_SIZE
 *   PIVSM_OK
 */
uint32_t pivsm_aes_encrypt(const uint8_t *key, size_t key_len, uint8_t *block, size_t block_len);

/* Decrypt one block in place (FIPS 197, 5.3): pivsm_aes_encrypt's inverse, with the same results. */
uint32_t pivsm_aes_decrypt(const uint8_t *key, size_t key_len, uint8_t *block, size_t block_len);

/* Encrypt whole blocks in place in CBC mode (SP 800-38A, 6.2). No padding is added.
 *
 *   key       in       16 or 32 bytes
 *   iv        in       the initialization vector, PIVSM_BLOCK_SIZE bytes
 *   data      in, out  the plaintext, then the ciphertext: any number of whole blocks, none included
 *
 * Returns the first that applies:
 *   PIVSM_BAD_KEY_LENGTH
 *   PIVSM_MALFORMED         iv_len is not PIVSM_BLOCK_SIZE, or data_len is no multiple of it
 *   PIVSM_OK
 */
uint32_t pivsm_cbc_encrypt(const uint8_t *key, size_t key_len, const uint8_t *iv, size_t iv_len,
                           uint8_t *data, size_t data_len);

/* Decrypt whole blocks in place in CBC mode: pivsm_cbc_encrypt's inverse, with the same results. No
 * padding is looked for or removed. */
uint32_t pivsm_cbc_decrypt(const uint8_t *key, size_t key_len, const uint8_t *iv, size_t iv_len,
                           uint8_t *data, size_t data_len);

/* The CMAC of a message (SP 800-38B, 6.2), all 16 bytes of it. The message comes as two parts, so that a
 * header need not be copied in front of the data; either may be empty, and where the cut lies makes no
 * difference to the MAC.
 *
 *   key       in       16 or 32 bytes
 *   head      in       the message's first bytes, of any length
 *   rest      in       the message's other bytes, of any length
 *   mac       out      the MAC, PIVSM_BLOCK_SIZE bytes
 *
 * Returns the first that applies:
 *   PIVSM_BAD_KEY_LENGTH
 *   PIVSM_MALFORMED         mac_len is not PIVSM_BLOCK_SIZE
 *   PIVSM_OK
 */
uint32_t pivsm_cmac(const uint8_t *key, size_t key_len, const uint8_t *head, size_t head_len,
                    const uint8_t *rest, size_t rest_len, uint8_t *mac, size_t mac_len);

#ifdef __cplusplus
}
#endif

#endif
