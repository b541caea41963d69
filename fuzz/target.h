/* What the targets use: exactly sized blocks, little-endian numbers, and the shape of an answer by the tables of refusals. */
#ifndef FUZZ_TARGET_H
#define FUZZ_TARGET_H

#include "conuhawe.h"

#include <stdio.h>
#include <stdlib.h>
#include <string.h>

int LLVMFuzzerTestOneInput(const uint8_t *data, size_t size);

#define CHECK(claim)                                                              \
    do {                                                                          \
        if (!(claim)) {                                                           \
            fprintf(stderr, "%s:%d: not so: %s\n", __FILE__, __LINE__, #claim);   \
            abort();                                                              \
        }                                                                         \
    } while (0)

/* A block of just this size, so that a read or write past it is seen. */
static inline void *block(const void *from, size_t size)
{
    void *b = malloc(size);
    CHECK(b);
    if (size)
        memcpy(b, from, size);
    return b;
}

/* How many instants are run, and from which byte on a length is the node's own. */
enum { INSTANTS = 4, NATURAL = 128 };

/* What of the input is left. */
typedef struct {
    const uint8_t *bytes;
    size_t left;
} source;

static inline void take(source *s, void *to, size_t size)
{
    size_t n = size < s->left ? size : s->left;
    memset(to, 0, size);
    memcpy(to, s->bytes, n);
    s->bytes += n;
    s->left -= n;
}

static inline size_t u16_at(const uint8_t *p)
{
    return p[0] | (size_t)p[1] << 8;
}

static inline int same_answer(conuhawe_answer a, conuhawe_answer b)
{
    return memcmp(&a, &b, sizeof a) == 0;
}

/* The place that a number is met at; 21 has two. */
static inline int place_fits(size_t number, size_t place)
{
    if (number == 0 || number == CONUHAWE_UNFINISHED)
        return place == CONUHAWE_NO_PLACE;
    if (number <= 4 || (number >= 11 && number <= 14) || (number >= 30 && number <= 32) || number == 35 || number == 55 ||
        number == 65 || number == 71)
        return place == CONUHAWE_FILE;
    if (number <= 8 || number == 23 || number == 33 || number == 34 || number == 72)
        return place == CONUHAWE_RECORD;
    if (number == 15)
        return place == CONUHAWE_CONSTRAINT;
    if ((number >= 16 && number <= 20) || number == 22)
        return place == CONUHAWE_LINE;
    return number == 21 && (place == CONUHAWE_BASE || place == CONUHAWE_STEP);
}

/* What holds of any answer; `streams`, `constraints` and `lines` bound the index. */
static inline void check_shape(conuhawe_answer a, size_t streams, size_t constraints, size_t lines)
{
    CHECK(place_fits(a.number, a.place));
    if (a.place == CONUHAWE_RECORD)
        CHECK(a.index < streams);
    else if (a.place == CONUHAWE_CONSTRAINT)
        CHECK(a.index < constraints);
    else if (a.place == CONUHAWE_LINE)
        CHECK(a.index < lines);
    else
        CHECK(a.index == 0);
    if (a.number != 0)
        CHECK(a.value[0] == 0 && a.value[1] == 0 && a.value[2] == 0);
}

/* How many operands of each operator are needed now, a first. */
static const uint8_t needed_now[16] = {0, 0, 1, 2, 2, 2, 2, 2, 1, 2, 2, 3, 2, 1, 2, 2};

/* The lowest record from which operands needed now lead on without end, the stream count where there is none: a second reading of
 * records that pass 5 and 6. */
static inline size_t lowest_endless(const uint8_t *records, size_t streams)
{
    uint8_t ends[64] = {0};
    for (size_t round = 0; round < streams; round++)
        for (size_t i = 0; i < streams; i++) {
            const uint8_t *r = records + 16 * i;
            uint8_t all = 1;
            for (size_t j = 0; j < needed_now[r[0]]; j++)
                all &= ends[u16_at(r + 2 + 2 * j)];
            ends[i] = all;
        }
    size_t i = 0;
    while (i < streams && ends[i])
        i++;
    return i;
}

/* What holds of an answer on a node file. The trailer may be read where the file is past 1 to 3, the records where it is past 6. */
static inline void check_node_answer(conuhawe_answer a, const uint8_t *node, size_t length)
{
    CHECK(a.number <= 8 || a.number == 23);
    size_t streams = a.number == 0 || a.number > 3 ? u16_at(node + length - 12) : 0;
    check_shape(a, streams, 0, 0);
    if (a.number == 0 || a.number > 6) {
        size_t lowest = lowest_endless(node + length - 16 - 16 * streams, streams);
        CHECK((a.number == 23) == (lowest < streams) && (a.number != 23 || a.index == lowest));
    }
    if (a.number != 0)
        return;
    CHECK(streams >= 1 && streams <= 64 && 16 + 16 * streams <= length);
    CHECK(a.value[0] == streams && a.value[1] == u16_at(node + length - 10) && a.value[1] < streams && a.value[2] == 0);
}

/* Whether a trailer has its fixed bytes, version 2 among them. */
static inline int has_fixed_bytes(const uint8_t *trailer)
{
    return trailer[0] == 0x4B && trailer[1] == 0x43 && trailer[2] == 2 && trailer[10] == 0 && trailer[11] == 0;
}

/* What holds of an answer on a certificate whose node is accepted. The trailer may be read where the file is past 11. */
static inline void check_certificate_answer(conuhawe_answer a, const uint8_t *cert, size_t length)
{
    if (a.number != 11)
        CHECK((a.number == 12) == !has_fixed_bytes(cert + length - 16));
    if (a.number != 0 && a.number <= 14) {
        check_shape(a, 0, 0, 0);
        return;
    }
    const uint8_t *trailer = cert + length - 16;
    size_t constraints = u16_at(trailer + 4), base = u16_at(trailer + 6), step = u16_at(trailer + 8);
    CHECK(16 + 80 * (constraints + base + step) <= length);
    check_shape(a, 0, constraints, base + step);
    if (a.number != 0)
        return;
    CHECK(a.value[0] >= 1 && a.value[0] <= 8 && a.value[0] == trailer[3]);
    CHECK(a.value[1] == base && a.value[2] == step);
}

#endif
