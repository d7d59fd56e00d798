/* differential.c - compare the library with the reference on many cases.
 *
 * usage: differential [CASES [SEED [FIRST]]]
 *
 * Runs CASES cases (200000) of SEED (80073) from number FIRST (0) on. Each case is made from SEED and its number
 * alone, so `differential 1 SEED NUMBER` repeats one of them. Ends with 1 at the first difference, and also where,
 * without FIRST, some answer that a call may give was never met.
 *
 * Compared are the answer, every number that a call writes and every byte of every buffer, those behind the length
 * given and 32 bytes on both sides included. Besides: no output changes at a refusal, a session changes at OK, 9 and
 * 10 only, and an honest exchange gives back what was sent. Not tested, because it cannot show: the upper limit of E,
 * which the limit of the field hides.
 *
 *   both.h, both.c        each call made on both and compared; the table of calls and answers
 *   buffers.h, buffers.c  random numbers, lent buffers between canaries, the report of a mismatch
 *   cases.h, scenery.c    what the cases share
 *   forge.c               fields with a right MAC and a wrong structure or padding
 *   cases_*.c             the kinds of cases
 *   vectors.c             a program of its own: known answers for the reference
 *   mutants.txt, .sh      mistakes in the reference, and whether the comparison notices them
 */
#include "cases.h"

#include "pivsm.h"

#include <inttypes.h>
#include <stdio.h>
#include <stdlib.h>

/* The kinds take turns; a kind that stands twice has twice the cases. */
static void (*const kinds[])(uint64_t index) = {
    case_honest_session,      case_unwrap_command,        case_unwrap_response,     case_wrap_command,
    case_wrap_response,       case_damaged_command,       case_damaged_response,    case_open,
    case_fragment_command,    case_reassemble_command,    case_command_chain,       case_unwrap_command,
    case_unwrap_response,     case_damaged_saved_session, case_saved_session_rules, case_saved_session_length,
    case_fragment_response,   case_reassemble_response,   case_response_chain,      case_repeated_messages,
    case_command_limit,       case_unwrap_command,        case_unwrap_response,     case_get_response,
    case_published_exchange,
};

enum { KINDS = sizeof kinds / sizeof kinds[0] };

/* The header's limits against the numbers of the rules. */
static bool limits_are_right(void)
{
    return PIVSM_SESSION_SIZE == 138 && PIVSM_COMMAND_DATA_MAX == 2047 && PIVSM_RESPONSE_DATA_MAX == 16383 &&
           PIVSM_COMMAND_FIELD_MAX == 2066 && PIVSM_RESPONSE_FIELD_MAX == 16403 &&
           PIVSM_COMMAND_CIPHERTEXT_MAX == 2048 && PIVSM_RESPONSE_CIPHERTEXT_MAX == 16384 &&
           PIVSM_COMMAND_APDU_MAX == 261 && PIVSM_RESPONSE_APDU_MAX == 258 && PIVSM_GET_RESPONSE_SIZE == 5 &&
           PIVSM_COMMAND_LIMIT == 65535 && PIVSM_CS2 == 2 && PIVSM_CS7 == 7;
}

static uint64_t argument(int argc, char **argv, int at, uint64_t usual)
{
    return argc > at ? strtoull(argv[at], NULL, 10) : usual;
}

int main(int argc, char **argv)
{
    uint64_t cases = argument(argc, argv, 1, 200000), seed = argument(argc, argv, 2, 80073);
    uint64_t first = argument(argc, argv, 3, 0);
    bool met;
    setvbuf(stdout, NULL, _IOLBF, 0);
    if (!limits_are_right()) {
        printf("a limit in pivsm.h is not the one of the rules\n");
        return 1;
    }
    for (uint64_t number = first; number - first < cases; number++) {
        start_case(seed, number);
        kinds[number % KINDS](number / KINDS);
    }
    met = print_counts();
    printf("%" PRIu64 " cases of seed %" PRIu64 ", no difference\n", cases, seed);
    if (!met && argc <= 3) {
        printf("FAILED: not every answer that a call may give was met, or one was that it may not give\n");
        return 1;
    }
    return 0;
}
