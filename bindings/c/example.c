/* Commits to the column 1, 3 on the domain 1, -1, whose polynomial is 2 - X; draws a point after
 * the commitment; opens the column there, and verifies the opening as one who has only what was
 * sent and what is known before. Does so over each field, and prints `accepted`, and why it isn't
 * with a changed value and with a changed commitment. */
#include <stdio.h>
#include <stdlib.h>
#include <string.h>

#include "p3_fri.h"

/* An element of the extension has as many bytes in each field. */
enum { DIGEST = 32, POINT = 16 };

/* Parameters, which the verifier knows: blowup 2, folds by two to a constant, 100 queries. */
static const uint32_t PARAMETERS[7] = {1, 0, 1, 100, 0, 0, 0};

/* The fields: how many bytes an element has, and how many coefficients one of the extension. */
struct field {
    const char *name;
    uint32_t number;
    uint64_t order;
    size_t element_bytes, degree;
};

static const struct field FIELDS[3] = {
    {"BabyBear", P3_FRI_BABY_BEAR, 2013265921, 4, 4},
    {"KoalaBear", P3_FRI_KOALA_BEAR, 2130706433, 4, 4},
    {"Goldilocks", P3_FRI_GOLDILOCKS, 18446744069414584321u, 8, 2},
};

/* A label that no other program uses. */
static const char LABEL[] = "p3_fri example, version 1";

/* Bytes in the flat form, enough for what is written here. */
struct flat {
    uint8_t bytes[256];
    size_t length;
};

static void put_bytes(struct flat *flat, const void *bytes, size_t length) {
    memcpy(flat->bytes + flat->length, bytes, length);
    flat->length += length;
}

static void put(struct flat *flat, uint32_t number) {
    uint8_t bytes[4];
    for (int i = 0; i < 4; i++) {
        bytes[i] = (uint8_t)(number >> 8 * i);
    }
    put_bytes(flat, bytes, sizeof bytes);
}

static void put_numbers(struct flat *flat, const uint32_t *numbers, size_t count) {
    for (size_t i = 0; i < count; i++) {
        put(flat, numbers[i]);
    }
}

static void put_element(struct flat *flat, const struct field *field, uint64_t number) {
    uint8_t bytes[8];
    for (int i = 0; i < 8; i++) {
        bytes[i] = (uint8_t)(number >> 8 * i);
    }
    put_bytes(flat, bytes, field->element_bytes);
}

static uint64_t get_element(const struct field *field, const uint8_t *bytes) {
    uint64_t number = 0;
    for (size_t i = 0; i < field->element_bytes; i++) {
        number |= (uint64_t)bytes[i] << 8 * i;
    }
    return number;
}

/* The domain, which the verifier knows too: shift and log size. */
static void put_domain(struct flat *flat, const struct field *field) {
    put_element(flat, field, 1);
    put(flat, 1);
}

/* What is absorbed before the opening: the label and the commitment, both as long as always. */
static void put_context(struct flat *flat, const uint8_t *commitment) {
    put(flat, sizeof LABEL + DIGEST);
    put_bytes(flat, LABEL, sizeof LABEL);
    put_bytes(flat, commitment, DIGEST);
}

/* The point that is drawn after the context. */
static int draw(const struct field *field, const uint8_t *commitment, uint8_t *point) {
    struct flat context = {.length = 0};
    size_t needed;
    put_context(&context, commitment);
    return p3_fri_challenge(field->number, context.bytes + 4, context.length - 4, point, POINT,
                            &needed);
}

/* A request to commit to the column, or to open it at the point. */
static void put_request(struct flat *flat, const struct field *field, const uint8_t *point) {
    put_numbers(flat, PARAMETERS, 7);
    put(flat, 1); /* one commitment */
    put(flat, 1); /* to one matrix */
    put_domain(flat, field);
    put(flat, 1); /* of one column */
    put(flat, point ? 1 : 0);
    put_element(flat, field, 1);
    put_element(flat, field, 3);
    if (point) {
        put_bytes(flat, point, POINT);
    }
}

/* What the statement says up to the value. */
static void put_front(struct flat *flat, const struct field *field, const uint8_t *commitment,
                      const uint8_t *point) {
    put_context(flat, commitment);
    put_numbers(flat, PARAMETERS, 7);
    put(flat, 1); /* one commitment */
    put_bytes(flat, commitment, DIGEST);
    put(flat, 1); /* to one matrix */
    put_domain(flat, field);
    put(flat, 1); /* at one point */
    put_bytes(flat, point, POINT);
    put(flat, 1); /* one value */
}

/* Whether the value is that of 2 - X. */
static int is_value(const struct field *field, const uint8_t *value, const uint8_t *point) {
    for (size_t i = 0; i < field->degree; i++) {
        size_t at = i * field->element_bytes;
        uint64_t sum = (i == 0 ? 2 : 0) + (field->order - get_element(field, point + at));
        if (get_element(field, value + at) != sum % field->order) {
            return 0;
        }
    }
    return 1;
}

/* Verifies what was sent, and prints what comes of it. */
static void verify(const struct field *field, const uint8_t *commitment, const uint8_t *statement,
                   size_t length) {
    uint8_t point[POINT], reply[256];
    struct flat front = {.length = 0};
    size_t needed;
    int status = draw(field, commitment, point);
    if (status != P3_FRI_ANSWERED) {
        printf("status %d\n", status);
        return;
    }
    put_front(&front, field, commitment, point);
    if (length < front.length + POINT || memcmp(statement, front.bytes, front.length) != 0) {
        puts("another statement than the expected one");
        return;
    }
    status = p3_fri_verify(field->number, statement, length, reply, sizeof reply, &needed);
    if (status == P3_FRI_REFUSED || status == P3_FRI_MALFORMED) {
        printf("status %d: %.*s\n", status, (int)needed, (const char *)reply);
    } else if (status != P3_FRI_ANSWERED) {
        printf("status %d\n", status);
    } else {
        int is_right = is_value(field, statement + front.length, point);
        puts(is_right ? "accepted" : "not the value of 2 - X");
    }
}

/* Commits, opens and verifies over a field, and answers whether there was an opening. */
static int run(const struct field *field) {
    static const uint8_t NO_CONTEXT[4] = {0};
    uint8_t commitment[DIGEST], point[POINT], *answer = NULL;
    struct flat request = {.length = 0}, front = {.length = 0};
    size_t room = 1 << 16, length;

    put_bytes(&request, NO_CONTEXT, sizeof NO_CONTEXT);
    put_request(&request, field, NULL);
    int status = p3_fri_commit(field->number, request.bytes, request.length, commitment, DIGEST,
                               &length);
    if (status == P3_FRI_ANSWERED) {
        status = draw(field, commitment, point);
    }
    if (status == P3_FRI_ANSWERED) {
        request.length = 0;
        put_context(&request, commitment);
        put_request(&request, field, point);
        status = P3_FRI_BUFFER_TOO_SHORT;
    }
    while (status == P3_FRI_BUFFER_TOO_SHORT) {
        free(answer);
        answer = malloc(room);
        status = answer ? p3_fri_open(field->number, request.bytes, request.length, answer, room,
                                      &length)
                        : P3_FRI_OUT_OF_MEMORY;
        room = length;
    }
    if (status != P3_FRI_ANSWERED) {
        fprintf(stderr, "status %d\n", status);
        free(answer);
        return 0;
    }

    /* The commitment and the statement are sent; the next challenge before it isn't. */
    uint8_t *statement = answer + 16;
    length -= 16;
    verify(field, commitment, statement, length);
    put_front(&front, field, commitment, point);
    statement[front.length] ^= 1;
    verify(field, commitment, statement, length);
    statement[front.length] ^= 1;
    commitment[0] ^= 1;
    verify(field, commitment, statement, length);
    free(answer);
    return 1;
}

int main(void) {
    for (int i = 0; i < 3; i++) {
        puts(FIELDS[i].name);
        if (!run(&FIELDS[i])) {
            return EXIT_FAILURE;
        }
    }
    return EXIT_SUCCESS;
}
