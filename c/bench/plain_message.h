/* Secure messaging in plain C, over any library's AES: the yardstick of bench_messages.c. It has what the
 * benchmark needs, a host's wrap and unwrap and a card's wrap of a response, and refuses what the proved calls
 * refuse, without saying why.
 */
#ifndef PLAIN_MESSAGE_H
#define PLAIN_MESSAGE_H

#include <stdbool.h>
#include <stddef.h>
#include <stdint.h>

#define SAVED_SESSION 138
#define LONGEST_COMMAND 2047
#define LONGEST_COMMAND_FIELD 2066
#define LONGEST_RESPONSE 16383
#define LONGEST_RESPONSE_FIELD 16403

/* A library's cipher. A key has 16 or 32 bytes, and lengths that CBC gets are multiples of 16. */
struct cipher {
    /* The key of the next three calls; `decrypting` says if cbc_decrypt will be one of them. */
    void (*set_key)(const uint8_t *key, size_t key_len, bool decrypting);
    void (*encrypt_block)(uint8_t block[16]);
    void (*cbc_encrypt)(const uint8_t iv[16], uint8_t *data, size_t len);
    void (*cbc_decrypt)(const uint8_t iv[16], const uint8_t *in, uint8_t *out, size_t len);
    /* The message is a first block and the rest, at least a byte. */
    void (*cmac)(const uint8_t *key, size_t key_len, const uint8_t first[16], const uint8_t *rest, size_t rest_len,
                 uint8_t mac[16]);
};

/* Each gives the length of the field or of the data, and the next chaining value of its direction. A refusal
 * gives 0 and writes nothing. The session is a saved one, and is only read. */

uint32_t plain_wrap_command(const struct cipher *cipher, const uint8_t *session, size_t session_len, uint8_t ins,
                            uint8_t p1, uint8_t p2, bool le, const uint8_t *data, size_t data_len, uint8_t *field,
                            size_t field_size, uint8_t next[16]);

uint32_t plain_wrap_response(const struct cipher *cipher, const uint8_t *session, size_t session_len, uint8_t sw1,
                             uint8_t sw2, const uint8_t *data, size_t data_len, uint8_t *field, size_t field_size,
                             uint8_t next[16]);

uint32_t plain_unwrap_response(const struct cipher *cipher, const uint8_t *session, size_t session_len,
                               const uint8_t *field, size_t field_len, uint8_t sw1, uint8_t sw2, uint8_t *data,
                               size_t data_size, uint8_t next[16]);

#endif
