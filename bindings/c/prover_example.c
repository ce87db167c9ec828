/* Commits to a column, draws a number, commits to a second column that begins with it, draws a
 * point, and opens both columns there without committing again, over each field. Prints `accepted`,
 * and why a matrix of another width and a prover that was freed aren't opened. It verifies the
 * statement as it is: `example.c` has a verifier who compares it with what it knows. */
#include <stdio.h>
#include <stdlib.h>
#include <string.h>

#include "p3_fri.h"

/* An element of the extension has as many bytes in each field. */
enum { DIGEST = 32, POINT = 16 };

/* Parameters: blowup 2, folds by two to a constant, 100 queries. */
static const uint32_t PARAMETERS[7] = {1, 0, 1, 100, 0, 0, 0};

/* The fields: how many bytes an element has. */
struct field {
    const char *name;
    uint32_t number;
    size_t element_bytes;
};

static const struct field FIELDS[3] = {
    {"BabyBear", P3_FRI_BABY_BEAR, 4},
    {"KoalaBear", P3_FRI_KOALA_BEAR, 4},
    {"Goldilocks", P3_FRI_GOLDILOCKS, 8},
};

/* A label that no other program uses. */
static const char LABEL[] = "p3_fri prover example, version 1";

/* Bytes in the flat form, enough for what is written here. */
struct flat {
    uint8_t bytes[256];
    size_t length;
};

static void put_bytes(struct flat *flat, const void *bytes, size_t length) {
    memcpy(flat->bytes + flat->length, bytes, length);
    flat->length += length;
}

static void put(struct flat *flat, uint32_t number) {
    uint8_t bytes[4];
    for (int i = 0; i < 4; i++) {
        bytes[i] = (uint8_t)(number >> 8 * i);
    }
    put_bytes(flat, bytes, sizeof bytes);
}

/* A small number as an element of the field. */
static void put_element(struct flat *flat, const struct field *field, uint32_t number) {
    put(flat, number);
    if (field->element_bytes == 8) {
        put(flat, 0);
    }
}

/* One matrix of a commitment on the domain 1, -1: its width and its number of points. */
static void put_matrix(struct flat *flat, const struct field *field, uint32_t width,
                       uint32_t points) {
    put(flat, 1);
    put_element(flat, field, 1);
    put(flat, 1);
    put(flat, width);
    put(flat, points);
}

/* An answer, as long as it is. */
struct answer {
    uint8_t bytes[1 << 17];
    size_t length;
};

/* Commits to a column that ends with 3, and adds the commitment to what was sent. The column begins
 * with an element's bytes. */
static int commit(const struct field *field, p3_fri_prover *prover, const uint8_t *first,
                  struct flat *sent, struct answer *answer) {
    struct flat batch = {.length = 0};
    put_matrix(&batch, field, 1, 0);
    put_bytes(&batch, first, field->element_bytes);
    put_element(&batch, field, 3);
    int status = p3_fri_prover_commit(prover, batch.bytes, batch.length, answer->bytes,
                                      sizeof answer->bytes, &answer->length);
    if (status == P3_FRI_ANSWERED) {
        put_bytes(sent, answer->bytes, DIGEST);
    }
    return status;
}

/* Draws an element of the extension after what was sent. */
static int draw(const struct field *field, const struct flat *sent, uint8_t *drawn) {
    size_t needed;
    return p3_fri_challenge(field->number, sent->bytes, sent->length, drawn, POINT, &needed);
}

/* Opens the two columns at a point, after what was sent. They are said to be so wide. */
static int open_at(const struct field *field, p3_fri_prover *prover, const uint8_t *point,
                   const struct flat *sent, uint32_t width, struct answer *answer) {
    struct flat asked = {.length = 0};
    put(&asked, (uint32_t)sent->length);
    put_bytes(&asked, sent->bytes, sent->length);
    put(&asked, 2);
    for (int i = 0; i < 2; i++) {
        put_matrix(&asked, field, width, 1);
        put_bytes(&asked, point, POINT);
    }
    return p3_fri_prover_open(prover, asked.bytes, asked.length, answer->bytes,
                              sizeof answer->bytes, &answer->length);
}

static void print(int status, const struct answer *answer) {
    printf("status %d: %.*s\n", status, (int)answer->length, (const char *)answer->bytes);
}

/* Commits twice, opens and verifies over a field, and answers whether that was accepted. */
static int run(const struct field *field) {
    static struct answer answer;
    p3_fri_prover prover = {0};
    struct flat parameters = {.length = 0}, sent = {.length = 0}, one = {.length = 0};
    uint8_t drawn[POINT], point[POINT], next[POINT];
    size_t needed;

    for (int i = 0; i < 7; i++) {
        put(&parameters, PARAMETERS[i]);
    }
    put_bytes(&sent, LABEL, sizeof LABEL);
    put_element(&one, field, 1);
    int status = p3_fri_prover_begin(field->number, parameters.bytes, parameters.length, &prover,
                                     answer.bytes, sizeof answer.bytes, &answer.length);
    if (status == P3_FRI_ANSWERED) {
        status = commit(field, &prover, one.bytes, &sent, &answer);
    }
    if (status == P3_FRI_ANSWERED) {
        status = draw(field, &sent, drawn);
    }
    if (status == P3_FRI_ANSWERED) {
        /* the first coefficient that was drawn */
        status = commit(field, &prover, drawn, &sent, &answer);
    }
    if (status == P3_FRI_ANSWERED) {
        status = draw(field, &sent, point);
    }
    if (status == P3_FRI_ANSWERED) {
        status = open_at(field, &prover, point, &sent, 1, &answer);
    }
    if (status == P3_FRI_ANSWERED) {
        /* the next challenge stands before the statement */
        status = p3_fri_verify(field->number, answer.bytes + POINT, answer.length - POINT, next,
                               POINT, &needed);
    }
    if (status != P3_FRI_ANSWERED || memcmp(next, answer.bytes, POINT) != 0) {
        fprintf(stderr, "status %d\n", status);
        p3_fri_prover_close(&prover);
        return 0;
    }
    puts("accepted");
    print(open_at(field, &prover, point, &sent, 2, &answer), &answer);
    p3_fri_prover_close(&prover);
    print(open_at(field, &prover, point, &sent, 1, &answer), &answer);
    return 1;
}

int main(void) {
    for (int i = 0; i < 3; i++) {
        puts(FIELDS[i].name);
        if (!run(&FIELDS[i])) {
            return EXIT_FAILURE;
        }
    }
    return EXIT_SUCCESS;
}
