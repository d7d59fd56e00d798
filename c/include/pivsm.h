/* pivsm.h - secure messaging between a PIV card and its host, after the session keys have been agreed
 * (NIST SP 800-73-4 Part 2, section 4.2, cipher suites CS2 and CS7), for both ends.
 *
 * The life of a host's session:
 *
 *     uint8_t session[PIVSM_SESSION_SIZE], field[PIVSM_COMMAND_FIELD_MAX], data[PIVSM_RESPONSE_CIPHERTEXT_MAX];
 *     size_t session_len, field_len, data_len;
 *     uint16_t sw;
 *
 *     pivsm_open_host(PIVSM_CS2, sk_enc, 16, sk_mac, 16, sk_rmac, 16, session, sizeof session, &session_len);
 *     pivsm_wrap_command(session, sizeof session, &session_len, 0xCB, 0x3F, 0xFF, true, request, request_len,
 *                        field, sizeof field, &field_len);
 *     ... pivsm_fragment_command makes the APDUs of field; send them; pivsm_reassemble_response puts the
 *         response together; see example.c ...
 *     if (pivsm_unwrap_response(session, sizeof session, &session_len, status, response, response_len,
 *                               data, sizeof data, &data_len, &sw) == PIVSM_OK && sw == 0x9000)
 *         ... data is what the card wrapped, in answer to this command: a verified read ...
 *     pivsm_close(session, sizeof session, &session_len);
 *
 * SESSION. A session is a string of bytes that the caller keeps (PIVSM_SESSION_SIZE has room for it) and lends
 * to each call together with its length. A call reads it and writes the next session in its place; nothing is
 * kept elsewhere, there is no global state and nothing is allocated. So:
 *   - session_size is the room for the bytes, session_len their length. Today every session has PIVSM_SESSION_SIZE
 *     bytes. Another session_len cannot be read, nor one over session_size, nor bytes that are not a session's: each
 *     is PIVSM_BAD_SESSION, before all else. Room and length are parameters because a session may grow in a later
 *     version: pass on the length that the last call left, too.
 *   - Pass on the bytes that the last call left, and no earlier ones. An earlier session accepts an old response
 *     again, and encrypts another text with the same counter. So store the new bytes before what was wrapped leaves.
 *   - The bytes are the session keys. Protect them as such; they are neither encrypted nor authenticated. Copies
 *     on the stack of a call are not wiped.
 *   - One thread at a time uses a session. Different sessions do not touch each other.
 *   - Where a result leaves the session as it was, not one of its bytes changes.
 *
 * STORING A SESSION. Where sessions are stored, and several workers serve them:
 *   - Store the new bytes after every call that changed them: on PIVSM_OK, and on PIVSM_BAD_MAC and PIVSM_BAD_PADDING,
 *     which close the session. A transaction that is rolled back because a read failed must not take the closing with
 *     it.
 *   - After a wrap, store before the first APDU leaves. Commit the bytes that an accepted response leaves and its bill
 *     together, and only where the stored bytes are still those that were read (compare and swap). Hand the data on
 *     after that. Two workers that store without comparing bill one read twice.
 *   - PIVSM_OUT_OF_TURN is what a second worker meets while a read of the same session is under way.
 *   - Authenticate what is stored, together with the caller whose session it is. Not every change of a bit makes the
 *     bytes unreadable, and a response that is unwrapped with another caller's bytes is PIVSM_BAD_MAC, which closes
 *     that other session.
 *   - The bytes are the same on every machine. This version reads and writes sessions of version 1, which is their
 *     third byte.
 *
 * ON THE LINE. A card tests whether an APDU is a GET RESPONSE (00 C0) before it reassembles it as a command. Over T=0 a
 * card answers a command that brings data by 61 xx and no data: send pivsm_get_response for xx, and reassemble what
 * comes then. After a refusal a card answers with a status word alone, without secure messaging, which the host
 * unwraps as PIVSM_UNPROTECTED (SP 800-73-4 Part 2, 4.2.7 has the status words).
 *
 * BUFFERS. A buffer is a pointer and a length in bytes: x_len says how many bytes there are to read, x_size how
 * many may be written. (NULL, 0) is an empty buffer. No two buffers or numbers that are lent to one call may
 * overlap if the call writes one of them. A pointer to a number must not be NULL; the number is written at every
 * result, unless the call says otherwise. A bool must be true or false before a call, too. A call writes to a
 * buffer on PIVSM_OK only, and then only as many bytes as the length that it gives: the bytes after those are the
 * caller's old ones. (The session alone is also written on PIVSM_BAD_MAC and PIVSM_BAD_PADDING, which close it.)
 * session_len is written where the session is, and keeps its value at every other result.
 *
 * RESULTS. Each call returns PIVSM_OK or the first refusal that applies, in the order in which the call lists
 * them. At a refusal the lengths and other numbers that a call gives are 0, but for the size that is needed, at
 * PIVSM_BUFFER_TOO_SMALL, and the status word at PIVSM_UNPROTECTED.
 *
 * NOT PROMISED. AES works by table look-ups, so time and cache behaviour tell of keys and data to those who can
 * measure them. Who puts back old session bytes is not noticed. A MAC has 8 bytes, as the standard wants it. A call
 * takes up to 24 KB of stack. Not here: key agreement, certificates, PINs,
 * extended-length APDUs, the protection of sessions at rest.
 */
#ifndef PIVSM_H
#define PIVSM_H

#include <stdbool.h>
#include <stddef.h>
#include <stdint.h>

#ifdef __cplusplus
extern "C" {
#endif

#define PIVSM_VERSION_MAJOR 4
#define PIVSM_VERSION_MINOR 0

/* Room for a session's bytes; today also the length of every session. */
#define PIVSM_SESSION_SIZE 138

/* The longest data of a command and of a response. */
#define PIVSM_COMMAND_DATA_MAX 2047
#define PIVSM_RESPONSE_DATA_MAX 16383

/* The longest data field under secure messaging, of a command and of a response: room enough for what a wrap or a
 * reassembly writes. */
#define PIVSM_COMMAND_FIELD_MAX 2066
#define PIVSM_RESPONSE_FIELD_MAX 16403

/* The longest encrypted data of a command and of a response: room enough for what an unwrap asks for. */
#define PIVSM_COMMAND_CIPHERTEXT_MAX 2048
#define PIVSM_RESPONSE_CIPHERTEXT_MAX 16384

/* The longest fragment of a command, with its header, Lc and Le, and of a response, with its status word. */
#define PIVSM_COMMAND_APDU_MAX 261
#define PIVSM_RESPONSE_APDU_MAX 258

/* The APDU of GET RESPONSE. */
#define PIVSM_GET_RESPONSE_SIZE 5

/* The most commands of a session. */
#define PIVSM_COMMAND_LIMIT 65535

/* Cipher suites. */
#define PIVSM_CS2 2 /* AES-128, keys of 16 bytes */
#define PIVSM_CS7 7 /* AES-256, keys of 32 bytes */

/* Results. */
enum pivsm_result {
    PIVSM_OK = 0,
    PIVSM_SESSION_CLOSED = 1,    /* open a new session */
    PIVSM_OUT_OF_TURN = 2,       /* this end does not make this call, or not now */
    PIVSM_NOT_PERMITTED = 3,     /* an INS, Le, absence of data or SW1 that secure messaging does not carry */
    PIVSM_TOO_LONG = 4,          /* over one of the limits above */
    PIVSM_COMMAND_LIMIT_REACHED = 5, /* open a new session */
    PIVSM_BUFFER_TOO_SMALL = 6,  /* nothing was written; repeat the call with the size that is given, but for a
                                    reassembly, which is then to start again from the first fragment */
    PIVSM_MALFORMED = 7,
    PIVSM_MISSING_OBJECT = 8,    /* a data object that is required is not there */
    PIVSM_BAD_MAC = 9,           /* the session is now closed */
    PIVSM_BAD_PADDING = 10,      /* the session is now closed */
    PIVSM_UNKNOWN_SUITE = 11,
    PIVSM_BAD_KEY_LENGTH = 12,
    PIVSM_UNPROTECTED = 13,      /* the card answered without secure messaging: nothing vouches for the status */
    PIVSM_BROKEN_CHAIN = 14,     /* no such fragment, or one that does not continue this chain */
    PIVSM_FRAGMENT_TOO_LONG = 15,
    PIVSM_BAD_SESSION = 16       /* these are not the bytes of a session */
};

/* Open a session: the host's, or the card's.
 *
 *   suite        in   PIVSM_CS2 or PIVSM_CS7
 *   sk_enc, sk_mac, sk_rmac
 *                in   the session keys, 16 bytes each with CS2 and 32 with CS7
 *   session      out  the session, ready for the first command
 *   session_len  out  OK: its length; BUFFER_TOO_SMALL: the size needed; else 0
 *
 * Returns the first that applies:
 *   PIVSM_UNKNOWN_SUITE
 *   PIVSM_BAD_KEY_LENGTH
 *   PIVSM_BUFFER_TOO_SMALL  session_size < PIVSM_SESSION_SIZE
 *   PIVSM_OK
 *
 * session is written on PIVSM_OK only. Each opening needs new keys: two sessions with the same keys encrypt with
 * the same counters.
 */
uint32_t pivsm_open_host(uint32_t suite, const uint8_t *sk_enc, size_t sk_enc_len, const uint8_t *sk_mac,
                         size_t sk_mac_len, const uint8_t *sk_rmac, size_t sk_rmac_len, uint8_t *session,
                         size_t session_size, size_t *session_len);
uint32_t pivsm_open_card(uint32_t suite, const uint8_t *sk_enc, size_t sk_enc_len, const uint8_t *sk_mac,
                         size_t sk_mac_len, const uint8_t *sk_rmac, size_t sk_rmac_len, uint8_t *session,
                         size_t session_size, size_t *session_len);

/* Close a session: its keys, count and MAC chaining values become zero; side and suite stay. A closed session may
 * be closed again.
 *
 *   session      in, out  the session
 *   session_size          the room for its bytes
 *   session_len  in, out  the length of its bytes; stays as it was at a refusal
 *
 * Returns the first that applies:
 *   PIVSM_BAD_SESSION  session cannot be read
 *   PIVSM_OK           the session is closed
 */
uint32_t pivsm_close(uint8_t *session, size_t session_size, size_t *session_len);

/* Wrap a command, on the host (SP 800-73-4 Part 2, 4.2.2 to 4.2.4).
 *
 *   session      in, out  the host's session
 *   session_size          the room for its bytes
 *   session_len  in, out  the length of its bytes; stays as it was at a refusal
 *   ins, p1, p2  in       the command's header, without secure messaging: VERIFY (20) and CHANGE REFERENCE DATA (24)
 *                         without Le, GET DATA (CB) with Le, GENERAL AUTHENTICATE (87) with or without
 *   le           in       whether the command has an Le field
 *   data         in       the command's data; none only for VERIFY
 *   field        out      the data field of the command under secure messaging
 *   field_len    out      OK: bytes written; BUFFER_TOO_SMALL: the size needed; else 0
 *
 * Returns the first that applies:
 *   PIVSM_BAD_SESSION            session cannot be read
 *   PIVSM_SESSION_CLOSED
 *   PIVSM_OUT_OF_TURN            a card's session, or the response to the last command was not accepted yet
 *   PIVSM_NOT_PERMITTED          not one of the commands above
 *   PIVSM_TOO_LONG               data_len > PIVSM_COMMAND_DATA_MAX
 *   PIVSM_COMMAND_LIMIT_REACHED  PIVSM_COMMAND_LIMIT commands have been wrapped
 *   PIVSM_BUFFER_TOO_SMALL
 *   PIVSM_OK                     the host waits for the response
 *
 * field and session change on PIVSM_OK only.
 */
uint32_t pivsm_wrap_command(uint8_t *session, size_t session_size, size_t *session_len, uint8_t ins, uint8_t p1,
                            uint8_t p2, bool le, const uint8_t *data, size_t data_len, uint8_t *field,
                            size_t field_size, size_t *field_len);

/* Unwrap a command, on the card.
 *
 *   session      in, out  the card's session
 *   session_size          the room for its bytes
 *   session_len  in, out  the length of its bytes; stays as it was at a refusal
 *   ins, p1, p2  in       the header of the command
 *   field        in       its data field, reassembled
 *   data         out      the command's data; there must be room for its ciphertext, which is up to 16 bytes longer
 *   data_len     out      OK: bytes written; BUFFER_TOO_SMALL: the size needed; else 0
 *   le           out      OK: whether the command has an Le field; else false
 *
 * Returns the first that applies:
 *   PIVSM_BAD_SESSION            session cannot be read
 *   PIVSM_SESSION_CLOSED
 *   PIVSM_OUT_OF_TURN            a host's session, or the last command was not answered yet
 *   PIVSM_NOT_PERMITTED          ins is not one that the host may wrap
 *   PIVSM_TOO_LONG               field_len > PIVSM_COMMAND_FIELD_MAX
 *   PIVSM_COMMAND_LIMIT_REACHED  PIVSM_COMMAND_LIMIT commands have been accepted
 *   PIVSM_MALFORMED              a data object breaks its form or its place, read from left to right; '97' in VERIFY
 *                                or CHANGE REFERENCE DATA does
 *   PIVSM_MISSING_OBJECT         none does, but one is not there: '8E'; '97' in GET DATA; '87' in a command other than
 *                                VERIFY. So an empty field is this
 *   PIVSM_BUFFER_TOO_SMALL
 *   PIVSM_BAD_MAC                the session is closed
 *   PIVSM_BAD_PADDING            the session is closed
 *   PIVSM_OK                     the card owes a response
 *
 * data is written on PIVSM_OK only, its first *data_len bytes only. session changes on PIVSM_OK, PIVSM_BAD_MAC and
 * PIVSM_BAD_PADDING only.
 */
uint32_t pivsm_unwrap_command(uint8_t *session, size_t session_size, size_t *session_len, uint8_t ins, uint8_t p1,
                              uint8_t p2, const uint8_t *field, size_t field_len, uint8_t *data, size_t data_size,
                              size_t *data_len, bool *le);

/* Wrap a response, on the card (SP 800-73-4 Part 2, 4.2.5).
 *
 *   session      in, out  the card's session
 *   session_size          the room for its bytes
 *   session_len  in, out  the length of its bytes; stays as it was at a refusal
 *   sw           in       the status word, SW1 * 256 + SW2; SW1 is not 61
 *   data         in       the response's data
 *   field        out      the data field of the response under secure messaging
 *   field_len    out      OK: bytes written; BUFFER_TOO_SMALL: the size needed; else 0
 *
 * Returns the first that applies:
 *   PIVSM_BAD_SESSION       session cannot be read
 *   PIVSM_SESSION_CLOSED
 *   PIVSM_OUT_OF_TURN       a host's session, or no command is to be answered
 *   PIVSM_NOT_PERMITTED     SW1 is 61
 *   PIVSM_TOO_LONG          data_len > PIVSM_RESPONSE_DATA_MAX
 *   PIVSM_BUFFER_TOO_SMALL
 *   PIVSM_OK                the card is ready for the next command
 *
 * field and session change on PIVSM_OK only.
 */
uint32_t pivsm_wrap_response(uint8_t *session, size_t session_size, size_t *session_len, uint16_t sw,
                             const uint8_t *data, size_t data_len, uint8_t *field, size_t field_size,
                             size_t *field_len);

/* Unwrap a response, on the host.
 *
 *   session        in, out  the host's session
 *   session_size            the room for its bytes
 *   session_len    in, out  the length of its bytes; stays as it was at a refusal
 *   sw             in       the status word that came with the response, SW1 * 256 + SW2
 *   field          in       its data field, reassembled, without SW1 SW2
 *   data           out      the response's data; there must be room for its ciphertext, which is up to 16 bytes
 *                           longer
 *   data_len       out      OK: bytes written; BUFFER_TOO_SMALL: the size needed; else 0
 *   authentic_sw   out      OK: the status word that the card wrapped; UNPROTECTED: sw, which nothing vouches for;
 *                           else 0
 *
 * Returns the first that applies:
 *   PIVSM_BAD_SESSION       session cannot be read
 *   PIVSM_SESSION_CLOSED
 *   PIVSM_OUT_OF_TURN       a card's session, or no command waits for its response
 *   PIVSM_UNPROTECTED       field_len is 0: the card answered without secure messaging
 *   PIVSM_TOO_LONG          field_len > PIVSM_RESPONSE_FIELD_MAX
 *   PIVSM_MALFORMED         a data object breaks its form or its place, read from left to right; a '99' that differs
 *                           from sw does
 *   PIVSM_MISSING_OBJECT    none does, but '99' or '8E' is not there
 *   PIVSM_BUFFER_TOO_SMALL
 *   PIVSM_BAD_MAC           the session is closed
 *   PIVSM_BAD_PADDING       the session is closed
 *   PIVSM_OK                data and status word are the card's; the host is ready for its next command
 *
 * data is written on PIVSM_OK only, its first *data_len bytes only. session changes on PIVSM_OK, PIVSM_BAD_MAC and
 * PIVSM_BAD_PADDING only; at every other refusal the host still waits for the response.
 */
uint32_t pivsm_unwrap_response(uint8_t *session, size_t session_size, size_t *session_len, uint16_t sw,
                               const uint8_t *field, size_t field_len, uint8_t *data, size_t data_size,
                               size_t *data_len, uint16_t *authentic_sw);

/* Make one APDU of a command's field (command chaining). Fragments are numbered from 0; ask for them until
 * PIVSM_BROKEN_CHAIN says that there is none with this number. A field of n bytes has n / size of them, rounded up,
 * where a size of 0 counts as 255.
 *
 *   ins, p1, p2  in   the command's header
 *   field        in   its data field under secure messaging
 *   size         in   the most data bytes of a fragment, 1 to 255; 0 means 255
 *   number       in   the number of the fragment, from 0
 *   apdu         out  CLA INS P1 P2 Lc and the data; CLA is 1C, on the last fragment 0C, which ends in Le 00
 *   apdu_len     out  OK: bytes written; BUFFER_TOO_SMALL: the size needed; else 0
 *
 * Returns the first that applies:
 *   PIVSM_FRAGMENT_TOO_LONG  size > 255
 *   PIVSM_TOO_LONG           field_len > PIVSM_COMMAND_FIELD_MAX
 *   PIVSM_BROKEN_CHAIN       there is no fragment with this number (of an empty field there is none)
 *   PIVSM_BUFFER_TOO_SMALL
 *   PIVSM_OK
 */
uint32_t pivsm_fragment_command(uint8_t ins, uint8_t p1, uint8_t p2, const uint8_t *field, size_t field_len,
                                size_t size, size_t number, uint8_t *apdu, size_t apdu_size, size_t *apdu_len);

/* Reassemble a command from its APDUs, on the card. Keep chain and field from one call to the next.
 *
 *   chain      in, out  0 before the first fragment; then what the last call left: LEN * 2^24 + INS * 2^16 + P1 * 2^8
 *                       + P2, with the header of the first fragment and the length reassembled. Back to 0 when the
 *                       command is whole, and at every refusal, which drops what was reassembled
 *   apdu       in       the APDU that came
 *   field      in, out  holds what was reassembled so far, and gets the data of this fragment
 *   field_len  out      OK: bytes reassembled so far; BUFFER_TOO_SMALL: the size needed; else 0
 *   sw         out      OK: 0x9000 where more fragments follow, to be sent to the host; 0 where the command is whole;
 *                       refused: 0
 *   ins, p1, p2
 *              out      the header of the command where it is whole; else 0
 *
 * Returns the first that applies:
 *   PIVSM_MALFORMED         not an APDU that pivsm_fragment_command makes
 *   PIVSM_BROKEN_CHAIN      its INS, P1 or P2 is not the chain's, or no call leaves such a chain
 *   PIVSM_TOO_LONG          with this fragment, more than PIVSM_COMMAND_FIELD_MAX bytes
 *   PIVSM_BUFFER_TOO_SMALL  start again from the first fragment, with more room: the chain was dropped
 *   PIVSM_OK
 */
uint32_t pivsm_reassemble_command(uint64_t *chain, const uint8_t *apdu, size_t apdu_len, uint8_t *field,
                                  size_t field_size, size_t *field_len, uint16_t *sw, uint8_t *ins, uint8_t *p1,
                                  uint8_t *p2);

/* Make one fragment of a response, on the card: what the command, or a GET RESPONSE, is answered with.
 *
 *   sw         in   the status word of the response, SW1 * 256 + SW2; SW1 is not 61
 *   field      in   its data field under secure messaging
 *   at         in   how many bytes of field were handed out: 0, then what *next was
 *   le         in   how many bytes were asked for; 0 means 256
 *   apdu       out  the data and SW1 SW2: 61 and the number of bytes left (00 for 256 and more), or sw at the end
 *   apdu_len   out  OK: bytes written; BUFFER_TOO_SMALL: the size needed; else 0
 *   next       out  OK: how many bytes of field have then been handed out; else 0: take it for the next `at` on OK only
 *
 * Returns the first that applies:
 *   PIVSM_NOT_PERMITTED     SW1 is 61
 *   PIVSM_TOO_LONG          field_len > PIVSM_RESPONSE_FIELD_MAX
 *   PIVSM_BROKEN_CHAIN      nothing is left (at >= field_len)
 *   PIVSM_BUFFER_TOO_SMALL
 *   PIVSM_OK
 */
uint32_t pivsm_fragment_response(uint16_t sw, const uint8_t *field, size_t field_len, size_t at, uint8_t le,
                                 uint8_t *apdu, size_t apdu_size, size_t *apdu_len, size_t *next);

/* Reassemble a response from its fragments, on the host. Keep chain and field from one call to the next.
 *
 *   chain      in, out  0 before the first fragment; then what the last call left: the length reassembled. Back to 0
 *                       when the response is whole, and at every refusal, which drops what was reassembled
 *   apdu       in       the fragment that came, with its SW1 SW2
 *   field      in, out  holds what was reassembled so far, and gets the data of this fragment
 *   field_len  out      OK: bytes reassembled so far; BUFFER_TOO_SMALL: the size needed; else 0
 *   sw         out      OK: where SW1 is 61, more follows: send the GET RESPONSE with SW2; else the response is whole
 *                       and this is the status word that came with it; refused: 0
 *
 * Returns the first that applies:
 *   PIVSM_MALFORMED         no whole status word, SW1 61 without data, or more than 256 bytes of data
 *   PIVSM_BROKEN_CHAIN      no call leaves such a chain
 *   PIVSM_TOO_LONG          with this fragment, more than PIVSM_RESPONSE_FIELD_MAX bytes
 *   PIVSM_BUFFER_TOO_SMALL  start again from the first fragment, with more room: the chain was dropped
 *   PIVSM_OK
 */
uint32_t pivsm_reassemble_response(uint64_t *chain, const uint8_t *apdu, size_t apdu_len, uint8_t *field,
                                   size_t field_size, size_t *field_len, uint16_t *sw);

/* Make the GET RESPONSE that asks for more of a response.
 *
 *   le         in   how many bytes to ask for; 0 means 256: SW2 of the status word 61 SW2
 *   apdu       out  00 C0 00 00 and le
 *   apdu_len   out  OK: bytes written; BUFFER_TOO_SMALL: the size needed
 *
 * Returns the first that applies:
 *   PIVSM_BUFFER_TOO_SMALL
 *   PIVSM_OK
 */
uint32_t pivsm_get_response(uint8_t le, uint8_t *apdu, size_t apdu_size, size_t *apdu_len);

#ifdef __cplusplus
}
#endif

#endif
