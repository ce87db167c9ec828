/* Proves that the last entry of a table of Fibonacci numbers is 21, and verifies the proof as
 * one who has only the proof and what is known before. Prints `accepted`, and why the proof
 * isn't accepted of another number and with a changed byte. */
#include <stdio.h>
#include <stdlib.h>
#include <string.h>

#include "p3_fri.h"

/* The verifier's own: parameters, of 2 bits of soundness for each query, and the system. The
 * first row is public, each next row is the second entry and the sum of both, and the last entry
 * is public. */
static const char SYSTEM[] =
    "{\"parameters\": {\"log_blowup\": 2, \"log_final_poly_len\": 0, \"max_log_arity\": 3,"
    " \"num_queries\": 50, \"batch_proof_of_work_bits\": 0, \"commit_proof_of_work_bits\": 0,"
    " \"query_proof_of_work_bits\": 0},"
    " \"air\": {\"layout\": {\"width\": 2, \"preprocessed_width\": 0, \"num_public_values\": 3,"
    " \"num_periodic_columns\": 0},"
    " \"nodes\": [{\"local\": 0}, {\"local\": 1}, {\"next\": 0}, {\"next\": 1}, {\"public\": 0},"
    " {\"public\": 1}, {\"public\": 2}, {\"sub\": [0, 4]}, {\"sub\": [1, 5]}, {\"sub\": [2, 1]},"
    " {\"add\": [0, 1]}, {\"sub\": [3, 10]}, {\"sub\": [1, 6]}],"
    " \"constraints\": [{\"rows\": \"first\", \"node\": 7}, {\"rows\": \"first\", \"node\": 8},"
    " {\"rows\": \"transition\", \"node\": 9}, {\"rows\": \"transition\", \"node\": 11},"
    " {\"rows\": \"last\", \"node\": 12}]}}";

static const char TRACE[] =
    "{\"public_values\": [0, 1, 21],"
    " \"trace\": [[0, 1], [1, 1], [1, 2], [2, 3], [3, 5], [5, 8], [8, 13], [13, 21]]}";

static const char PUBLIC_VALUES[] = "{\"public_values\": [0, 1, 21]}";

static const char OTHER_VALUES[] = "{\"public_values\": [0, 1, 22]}";

static const uint8_t *bytes(const char *text) {
    return (const uint8_t *)text;
}

/* Verifies a proof, and prints what comes of it. */
static void verify(const char *public_values, const uint8_t *proof, size_t length) {
    uint8_t reply[1024];
    size_t needed;
    int status = p3_fri_stark_verify(bytes(SYSTEM), strlen(SYSTEM), bytes(public_values),
                                     strlen(public_values), proof, length, reply, sizeof reply,
                                     &needed);
    if (status == P3_FRI_REFUSED || status == P3_FRI_MALFORMED) {
        printf("status %d: %.*s\n", status, (int)needed, (const char *)reply);
    } else if (status != P3_FRI_ANSWERED) {
        printf("status %d\n", status);
    } else {
        printf("accepted, of 2^%d rows\n", reply[0]);
    }
}

int main(void) {
    uint8_t *proof = NULL;
    size_t room = 1 << 17, length;
    int status = P3_FRI_BUFFER_TOO_SHORT;

    while (status == P3_FRI_BUFFER_TOO_SHORT) {
        free(proof);
        proof = malloc(room);
        status = proof ? p3_fri_stark_prove(bytes(SYSTEM), strlen(SYSTEM), bytes(TRACE),
                                            strlen(TRACE), proof, room, &length)
                       : P3_FRI_OUT_OF_MEMORY;
        room = length;
    }
    if (status != P3_FRI_ANSWERED) {
        fprintf(stderr, "status %d\n", status);
        free(proof);
        return EXIT_FAILURE;
    }

    /* The proof is sent: a text in JSON. */
    verify(PUBLIC_VALUES, proof, length);
    verify(OTHER_VALUES, proof, length);
    proof[0] = '[';
    verify(PUBLIC_VALUES, proof, length);
    free(proof);
    return EXIT_SUCCESS;
}
