/* reference.h - the calls of pivsm.h a second time, over OpenSSL's libcrypto, written from the rules alone.
 *
 * Each call has the signature and the meaning of the pivsm_ call of the same name. The implementation shares no
 * code, no table and no constant with the library that it is compared with. Not for production: static buffers,
 * so one thread at a time.
 */
#ifndef REFERENCE_H
#define REFERENCE_H

#include <stdbool.h>
#include <stddef.h>
#include <stdint.h>

uint32_t reference_open_host(uint32_t suite, const uint8_t *sk_enc, size_t sk_enc_len, const uint8_t *sk_mac,
                             size_t sk_mac_len, const uint8_t *sk_rmac, size_t sk_rmac_len, uint8_t *session,
                             size_t session_size, size_t *session_len);
uint32_t reference_open_card(uint32_t suite, const uint8_t *sk_enc, size_t sk_enc_len, const uint8_t *sk_mac,
                             size_t sk_mac_len, const uint8_t *sk_rmac, size_t sk_rmac_len, uint8_t *session,
                             size_t session_size, size_t *session_len);
uint32_t reference_close(uint8_t *session, size_t session_size, size_t *session_len);
uint32_t reference_wrap_command(uint8_t *session, size_t session_size, size_t *session_len, uint8_t ins, uint8_t p1,
                                uint8_t p2, bool le, const uint8_t *data, size_t data_len, uint8_t *field,
                                size_t field_size, size_t *field_len);
uint32_t reference_unwrap_command(uint8_t *session, size_t session_size, size_t *session_len, uint8_t ins,
                                  uint8_t p1, uint8_t p2, const uint8_t *field, size_t field_len, uint8_t *data,
                                  size_t data_size, size_t *data_len, bool *le);
uint32_t reference_wrap_response(uint8_t *session, size_t session_size, size_t *session_len, uint16_t sw,
                                 const uint8_t *data, size_t data_len, uint8_t *field, size_t field_size,
                                 size_t *field_len);
uint32_t reference_unwrap_response(uint8_t *session, size_t session_size, size_t *session_len, uint16_t sw,
                                   const uint8_t *field, size_t field_len, uint8_t *data, size_t data_size,
                                   size_t *data_len, uint16_t *authentic_sw);
uint32_t reference_fragment_command(uint8_t ins, uint8_t p1, uint8_t p2, const uint8_t *field, size_t field_len,
                                    size_t size, size_t number, uint8_t *apdu, size_t apdu_size, size_t *apdu_len);
uint32_t reference_reassemble_command(uint64_t *chain, const uint8_t *apdu, size_t apdu_len, uint8_t *field,
                                      size_t field_size, size_t *field_len, uint16_t *sw, uint8_t *ins, uint8_t *p1,
                                      uint8_t *p2);
uint32_t reference_fragment_response(uint16_t sw, const uint8_t *field, size_t field_len, size_t at, uint8_t le,
                                     uint8_t *apdu, size_t apdu_size, size_t *apdu_len, size_t *next);
uint32_t reference_reassemble_response(uint64_t *chain, const uint8_t *apdu, size_t apdu_len, uint8_t *field,
                                       size_t field_size, size_t *field_len, uint16_t *sw);
uint32_t reference_get_response(uint8_t le, uint8_t *apdu, size_t apdu_size, size_t *apdu_len);

/* Beyond the interface: what a test needs to forge fields that no honest end makes.
 *
 * receiver is the session of the end that is to read the field: 138 bytes, which need not be a readable session.
 * A command's field is forged for the number after the receiver's count, a response's for the count itself.
 */

/* The most bytes that the calls below take. */
#define REFERENCE_FORGE_MAX 36000

/* Encrypt len bytes, a multiple of 16, without adding padding. */
void reference_forge_ciphertext(const uint8_t *receiver, bool response, const uint8_t *padded, size_t len,
                                uint8_t *ciphertext);

/* The whole MAC over the objects, as the receiver computes it; a response does not use ins, p1, p2. */
void reference_forge_mac(const uint8_t *receiver, bool response, uint8_t ins, uint8_t p1, uint8_t p2,
                         const uint8_t *objects, size_t len, uint8_t mac[16]);

/* CMAC (SP 800-38B) with an AES key of 16 or 32 bytes. */
void reference_cmac(const uint8_t *key, size_t key_len, const uint8_t *message, size_t len, uint8_t mac[16]);

#endif
