/* Commits to a column of 16 squares in the hiding scheme, opens it at the point 5, and verifies the
 * opening, over each field. Prints `accepted`, and why it isn't with a changed value, and with
 * another number of random columns. The point is fixed, so what is accepted is the value there, and
 * nothing of the polynomial elsewhere: `example.c` draws its point. */
#include <stdio.h>
#include <stdlib.h>
#include <string.h>

#include "p3_fri.h"

enum { ROWS = 16, DIGEST = 32, SEED = 32, CHALLENGE = 16, CODEWORDS = 4 };

static const uint32_t NO_INDEX = 0xffffffff;

/* Blowup 2, folds by 16 to a constant, one query: no security, but as many rows as that takes. */
static const uint32_t PARAMETERS[7] = {1, 0, 4, 1, 0, 0, 0};

/* The fields: how many bytes an element has, and how many coefficients one of the extension. */
struct field {
    const char *name;
    uint32_t number;
    uint64_t order;
    size_t element_bytes, degree;
};

static const struct field FIELDS[3] = {
    {"BabyBear", P3_FRI_BABY_BEAR, 2013265921, 4, 4},
    {"KoalaBear", P3_FRI_KOALA_BEAR, 2130706433, 4, 4},
    {"Goldilocks", P3_FRI_GOLDILOCKS, 18446744069414584321u, 8, 2},
};

static const char LABEL[] = "p3_fri hiding example, version 1";

/* Bytes in the flat form, enough for what is written here. */
struct flat {
    uint8_t bytes[512];
    size_t length;
};

static void put_bytes(struct flat *flat, const void *bytes, size_t length) {
    memcpy(flat->bytes + flat->length, bytes, length);
    flat->length += length;
}

static void put(struct flat *flat, uint32_t number) {
    uint8_t bytes[4];
    for (int i = 0; i < 4; i++) {
        bytes[i] = (uint8_t)(number >> 8 * i);
    }
    put_bytes(flat, bytes, sizeof bytes);
}

static void put_numbers(struct flat *flat, const uint32_t *numbers, size_t count) {
    for (size_t i = 0; i < count; i++) {
        put(flat, numbers[i]);
    }
}

static void put_element(struct flat *flat, const struct field *field, uint64_t number) {
    uint8_t bytes[8];
    for (int i = 0; i < 8; i++) {
        bytes[i] = (uint8_t)(number >> 8 * i);
    }
    put_bytes(flat, bytes, field->element_bytes);
}

/* The point 5. */
static void put_point(struct flat *flat, const struct field *field) {
    for (size_t i = 0; i < field->degree; i++) {
        put_element(flat, field, i == 0 ? 5 : 0);
    }
}

/* The label as the context, then the parameters. */
static void put_head(struct flat *flat) {
    put(flat, sizeof LABEL);
    put_bytes(flat, LABEL, sizeof LABEL);
    put_numbers(flat, PARAMETERS, 7);
}

static void put_request(struct flat *flat, const struct field *field, const uint8_t *seed) {
    put(flat, CODEWORDS);
    put_bytes(flat, seed, SEED);
    put(flat, NO_INDEX);
    put_head(flat);
    put(flat, 1); /* one commitment */
    put(flat, 1); /* to one matrix */
    put_element(flat, field, 1); /* on the subgroup */
    put(flat, 4); /* of 2^4 points */
    put(flat, 1); /* of one column */
    put(flat, 1); /* at one point */
    for (uint32_t row = 0; row < ROWS; row++) {
        put_element(flat, field, row * row);
    }
    put_point(flat, field);
}

/* What the statement says up to the value, of the commitment that was sent before. */
static void put_front(struct flat *flat, const struct field *field, const uint8_t *commitment) {
    put(flat, CODEWORDS);
    put(flat, NO_INDEX);
    put_head(flat);
    put(flat, 1); /* one commitment */
    put_bytes(flat, commitment, DIGEST);
    put(flat, 1); /* to one matrix */
    put_element(flat, field, 1); /* on the subgroup */
    put(flat, 5); /* of twice as many points as there are rows */
    put(flat, 1); /* at one point */
    put_point(flat, field);
    put(flat, 1); /* one value */
}

/* Verifies what was sent, and prints what comes of it. */
static void verify(const struct field *field, const uint8_t *commitment, const uint8_t *statement,
                   size_t length) {
    uint8_t reply[256];
    struct flat front = {.length = 0};
    size_t needed;
    put_front(&front, field, commitment);
    if (length < front.length || memcmp(statement, front.bytes, front.length) != 0) {
        puts("another statement than the expected one");
        return;
    }
    int status =
        p3_fri_hiding_verify(field->number, statement, length, reply, sizeof reply, &needed);
    if (status == P3_FRI_REFUSED || status == P3_FRI_MALFORMED) {
        printf("status %d: %.*s\n", status, (int)needed, (const char *)reply);
    } else if (status != P3_FRI_ANSWERED) {
        printf("status %d\n", status);
    } else {
        puts("accepted");
    }
}

/* Commits, opens and verifies over a field, and answers whether there was an opening. */
static int run(const struct field *field) {
    static uint8_t answer[1 << 14];
    uint8_t commitment[DIGEST], seed[SEED];
    struct flat request = {.length = 0};
    size_t length = 0;

    /* Secret and fresh: bytes of the system's source. */
    FILE *source = fopen("/dev/urandom", "rb");
    if (!source || fread(seed, 1, SEED, source) != SEED) {
        fputs("no random bytes\n", stderr);
        return 0;
    }
    fclose(source);

    put_request(&request, field, seed);
    int status = p3_fri_hiding_commit(field->number, request.bytes, request.length, commitment,
                                      DIGEST, &length);
    if (status == P3_FRI_ANSWERED) {
        status = p3_fri_hiding_open(field->number, request.bytes, request.length, answer,
                                    sizeof answer, &length);
    }
    if (status != P3_FRI_ANSWERED) {
        fprintf(stderr, "status %d\n", status);
        return 0;
    }

    /* The commitment and the statement are sent; the next challenge before it isn't. */
    uint8_t *statement = answer + CHALLENGE;
    length -= CHALLENGE;
    verify(field, commitment, statement, length);
    struct flat front = {.length = 0};
    put_front(&front, field, commitment);
    statement[front.length] ^= 1;
    verify(field, commitment, statement, length);
    statement[0] = CODEWORDS + 1;
    verify(field, commitment, statement, length);
    return 1;
}

int main(void) {
    for (int i = 0; i < 3; i++) {
        puts(FIELDS[i].name);
        if (!run(&FIELDS[i])) {
            return EXIT_FAILURE;
        }
    }
    return EXIT_SUCCESS;
}
