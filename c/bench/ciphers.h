/* The ciphers that the benchmark's messages are made with: plain_aes.c and three libraries.
 *
 * Contexts are looked up once and kept, as a program that cares for speed would, so the program may have only
 * one thread. Keys are set each time.
 */
#ifndef CIPHERS_H
#define CIPHERS_H

#include "plain_message.h"

extern const struct cipher plain_cipher, openssl_cipher, nettle_cipher, gcrypt_cipher;

/* Names a feature of the processor that libgcrypt shall not use, or "all". libgcrypt has no such variable of
 * its own; it is read when the first key is set. */
#define GCRYPT_WITHOUT "BENCH_GCRYPT_WITHOUT"

#endif
