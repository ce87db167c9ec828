/* The plain FRI commitment scheme and the one that hides, over a prime field, an extension of it
 * and SHA-256, and a STARK in both over BabyBear.
 *
 * Of the scheme bytes go in and bytes come out, in the flat form of docs/FORMATS.md: a number is
 * four bytes, the lowest first, and a digest 32. An element of the field is its canonical number,
 * below the field's order, in four bytes, or eight for Goldilocks; one of the extension is its
 * coefficients, that of one first. A list is the number of its entries, and these. A proof is of
 * this form too: a statement's last part, to its end. The field is passed beside: no bytes name it,
 * and a verifier passes its own.
 *
 * Each function reads what it is passed, and writes its answer, or the text of why it has none, to
 * the front of `answer`. `*needed` then is how many bytes that takes; there is no byte 0 after
 * them, and bytes past them stay. What comes back is one of the statuses below.
 *
 * An accepted statement says, but for an error that its parameters bound, that the claimed values
 * are those of the polynomials committed to, at the claimed points. Its context, parameters,
 * commitments, domains, widths and points are absorbed before anything is drawn, so none of them
 * can be chosen by what is drawn. That they are what an application needs them to be is the
 * application's to see to. It keeps bytes, its context: a name and version that no other has, all
 * that is public, each commitment once it is made, and each challenge that was drawn, in a form
 * that can be read in one way alone. It draws challenges and points after these bytes by
 * `p3_fri_challenge`, and opens with them as the context. A verifier makes these bytes by itself.
 *
 * The caller owns all memory that is passed; no pointer is kept once a call returns. A pointer
 * whose length is 0 may be null; `needed` is never null, and `answer` and `needed` overlap
 * nothing. Memory inside a call comes from malloc, and but for a prover's is given back before it
 * returns. No call stops the program. Calls share nothing but a prover's handle, so threads may
 * call at once; a signal handler, or the child of a fork in a program with threads, may not call.
 * How long a call takes follows from the request, which docs/USE.md describes. */
#ifndef P3_FRI_H
#define P3_FRI_H

#include <stddef.h>
#include <stdint.h>

#ifdef __cplusplus
extern "C" {
#endif

enum p3_fri_status {
    /* The answer is in the buffer. Where something is verified, it is accepted. */
    P3_FRI_ANSWERED = 0,
    /* The request is well formed, and refused: the buffer holds `Name { numbers }: words`. */
    P3_FRI_REFUSED = 1,
    /* The request isn't well formed: the buffer holds `Name: place, words`. */
    P3_FRI_MALFORMED = 2,
    /* Memory was refused. The buffer is as it was, and *needed is 0. */
    P3_FRI_OUT_OF_MEMORY = 3,
    /* The buffer is shorter than *needed, and as it was. A second call does the work again. */
    P3_FRI_BUFFER_TOO_SHORT = 4
};

enum p3_fri_field {
    /* 2^31 - 2^27 + 1, with the extension of degree 4 by X^4 - 11. */
    P3_FRI_BABY_BEAR = 0,
    /* 2^31 - 2^24 + 1, with the extension of degree 4 by X^4 - 3. */
    P3_FRI_KOALA_BEAR = 1,
    /* 2^64 - 2^32 + 1, with the extension of degree 2 by X^2 - 7. */
    P3_FRI_GOLDILOCKS = 2
};

/* Commits to the matrices of a request: 32 bytes for each commitment. Context and points of the
 * request say nothing here. */
uint8_t p3_fri_commit(uint32_t field, const uint8_t *request, size_t request_length,
                      uint8_t *answer, size_t answer_length, size_t *needed);

/* Commits to the matrices of a request, and opens them at its points under its context: the
 * coefficients of the next challenge, then a statement, which `p3_fri_verify` accepts. */
uint8_t p3_fri_open(uint32_t field, const uint8_t *request, size_t request_length,
                    uint8_t *answer, size_t answer_length, size_t *needed);

/* Verifies a statement: the coefficients of the next challenge, the same as `p3_fri_open`'s. A
 * statement names its own context, parameters, commitments, domains and points: whoever relies on
 * it being accepted compares these with the expected ones. They stand before the proof, in a form
 * that is the only one of what it says, so it is enough to compare bytes. */
uint8_t p3_fri_verify(uint32_t field, const uint8_t *statement, size_t statement_length,
                      uint8_t *answer, size_t answer_length, size_t *needed);

/* Draws a challenge after a context: the coefficients of an element of the extension. The bytes of
 * the context, any bytes, are the whole request. */
uint8_t p3_fri_challenge(uint32_t field, const uint8_t *context, size_t context_length,
                         uint8_t *answer, size_t answer_length, size_t *needed);

/* A handle of a prover that keeps what it committed to, so that an opening commits to nothing again.
 * It is all zero bytes before it is first begun, and its fields are the library's. It may be moved,
 * and not copied; any thread may pass it on, to one call at a time. Its prover has memory from
 * malloc, some `2^log_blowup` times what was committed to, until the handle is closed or begun
 * anew. A handle that wasn't begun, or is closed, has no prover, and is malformed. */
typedef struct p3_fri_prover {
    void *at;
    uint8_t is_open;
} p3_fri_prover;

/* Gives a handle a prover of parameters, seven numbers, which has committed to nothing. The answer
 * is empty. What the handle had is freed; where there is no answer, it has no prover. */
uint8_t p3_fri_prover_begin(uint32_t field, const uint8_t *parameters, size_t parameters_length,
                            p3_fri_prover *prover,
                            uint8_t *answer, size_t answer_length, size_t *needed);

/* Commits to the matrices under one commitment, a list as in a request, and keeps what opens them:
 * 32 bytes. Points say nothing here. What isn't answered isn't kept. A challenge that the next
 * matrices depend on is drawn by `p3_fri_challenge`, from the bytes of what was sent. */
uint8_t p3_fri_prover_commit(p3_fri_prover *prover,
                             const uint8_t *batch, size_t batch_length,
                             uint8_t *answer, size_t answer_length, size_t *needed);

/* Opens all that the prover keeps, and answers as `p3_fri_open` of a request of the same matrices
 * with these points. What is asked is a context, and the list of commitments as in a request but
 * for the matrices' values, which aren't there. Other domains or widths than those committed to are
 * malformed. What is kept stays as it was, and a call for a longer buffer answers the same. */
uint8_t p3_fri_prover_open(p3_fri_prover *prover,
                           const uint8_t *asked, size_t asked_length,
                           uint8_t *answer, size_t answer_length, size_t *needed);

/* Frees a handle's prover, if it has one. */
void p3_fri_prover_close(p3_fri_prover *prover);

/* The scheme that hides: what is committed to is masked by random columns and rows, so that an
 * opening shows nothing of it beyond the claimed values. That it hides isn't proved; what an
 * accepted statement says is as above.
 *
 * A hiding request is the number of random columns, four at least; a seed, 32 bytes; the index of
 * the commitment that is public and isn't masked, or 0xffffffff where there is none; and then a
 * request as above. All masks are drawn from the seed: it is secret, from a good source, and fresh
 * for each proof. `p3_fri_hiding_commit` and `p3_fri_hiding_open` of the same matrices take the
 * same seed, and so does a second call for a longer buffer: that is one proof. Two openings with
 * one seed of other data, or of the same at other points, show how their masks belong together, so
 * that what was hidden can be computed from them. Whoever learns the seed can compute it too: the
 * caller overwrites it once it isn't needed.
 * A commitment that comes after a challenge is the last of `p3_fri_hiding_commit` of all matrices
 * so far, in order and with the same seed: committed to alone it would have the first one's masks.
 *
 * A hiding statement is the number of random columns and that index, then context, parameters and
 * claims as above, then the values of the random columns and the proof. It has no seed. */

/* Commits to the matrices of a hiding request: 32 bytes for each commitment. */
uint8_t p3_fri_hiding_commit(uint32_t field, const uint8_t *request, size_t request_length,
                             uint8_t *answer, size_t answer_length, size_t *needed);

/* Commits to the matrices of a hiding request, and opens them at its points under its context: the
 * coefficients of the next challenge, then a hiding statement, which `p3_fri_hiding_verify`
 * accepts. */
uint8_t p3_fri_hiding_open(uint32_t field, const uint8_t *request, size_t request_length,
                           uint8_t *answer, size_t answer_length, size_t *needed);

/* Verifies a hiding statement: the coefficients of the next challenge. Whoever relies on it being
 * accepted compares all that stands before the random values with what is expected, the number of
 * random columns and the index too. */
uint8_t p3_fri_hiding_verify(uint32_t field, const uint8_t *statement, size_t statement_length,
                             uint8_t *answer, size_t answer_length, size_t *needed);

/* A STARK: a proof that there is a trace, a table of elements, which satisfies a constraint system.
 *
 * What goes in are texts in JSON, UTF-8 without a byte 0 after them: a system with its parameters,
 * a trace, public values and a proof are the files AIR, TRACE, PUBLICS and PROOF of
 * docs/FORMATS.md. A text of a trace serves as public values too.
 *
 * A verifier passes its own system and its own public values. That a proof is accepted means,
 * but for an error that the system's parameters bound, that there is a trace which satisfies
 * that system with these public values. Both sides absorb all of the system before anything is
 * drawn. A proof is bound to nothing else: an application's name or a session belongs into a
 * public value. */

/* Holds a trace against a system: no bytes where it satisfies it. */
uint8_t p3_fri_stark_check(const uint8_t *system, size_t system_length,
                           const uint8_t *trace, size_t trace_length,
                           uint8_t *answer, size_t answer_length, size_t *needed);

/* Proves in the plain scheme that a trace satisfies a system: the text of a proof. */
uint8_t p3_fri_stark_prove(const uint8_t *system, size_t system_length,
                           const uint8_t *trace, size_t trace_length,
                           uint8_t *answer, size_t answer_length, size_t *needed);

/* The same in the scheme that hides, whose masks are drawn from a seed: 32 bytes of a good
 * source that nobody can guess, and that no proof of something else had. A second call for a
 * longer buffer takes the same seed. */
uint8_t p3_fri_stark_prove_hiding(const uint8_t *system, size_t system_length,
                                  const uint8_t *trace, size_t trace_length,
                                  const uint8_t *seed, size_t seed_length,
                                  uint8_t *answer, size_t answer_length, size_t *needed);

/* Verifies a proof of the plain scheme: a number of eight bytes, the lowest first, the k of a
 * trace of 2^k rows. */
uint8_t p3_fri_stark_verify(const uint8_t *system, size_t system_length,
                            const uint8_t *public_values, size_t public_values_length,
                            const uint8_t *proof, size_t proof_length,
                            uint8_t *answer, size_t answer_length, size_t *needed);

/* The same of a proof of the scheme that hides. */
uint8_t p3_fri_stark_verify_hiding(const uint8_t *system, size_t system_length,
                                   const uint8_t *public_values, size_t public_values_length,
                                   const uint8_t *proof, size_t proof_length,
                                   uint8_t *answer, size_t answer_length, size_t *needed);

#ifdef __cplusplus
}
#endif

#endif
