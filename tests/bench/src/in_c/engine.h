/* The engine's methods, written in C. Results are those of yepidlaw.h; tests and letters are document 01's. */
#ifndef ENGINE_H
#define ENGINE_H

#include <stdbool.h>
#include <stddef.h>
#include <stdint.h>

#include "yepidlaw.h"

enum { JNDS = 1023, LEVELS = 1024, VALUES = 256, PATCHES = 18, PAIRS = 17, WORDS_OF_ROW = 32, LONGEST_RECORD = 6250 };
enum { DARKEST = 500, BRIGHTEST = 39934040, LEAST_RANGE = 10000 };
/* T(200) and T(300) */
enum { JND_200 = 82179, JND_300 = 233990 };

/* Table B-1; entry j - 1 is that of JND j. */
extern const uint32_t table_b1[JNDS];

/* A record whose readings are taken where they lie. */
struct job {
    const uint8_t *sweep, *check;
    size_t readings, patches;
    uint32_t depth, class, tolerance;
    /* A0, and A, which is added to each reading. */
    uint32_t room, added;
    /* Jlo and Jhi */
    uint32_t low, high;
};

static inline uint32_t u16_at(const uint8_t *bytes) {
    return bytes[0] | (uint32_t)bytes[1] << 8;
}

static inline uint32_t u32_at(const uint8_t *bytes) {
    return u16_at(bytes) | u16_at(bytes + 2) << 16;
}

static inline uint32_t ddl_at(const struct job *job, size_t i) {
    return u16_at(job->sweep + 6 * i);
}

static inline uint32_t reading_at(const struct job *job, size_t i) {
    return u32_at(job->sweep + 6 * i + 2);
}

static inline bool in_table(uint64_t l) {
    return DARKEST <= l && l <= BRIGHTEST;
}

/* G */
static inline uint32_t luminance_of(uint32_t k) {
    const uint32_t *entry = table_b1 + k / 100 - 1;
    const uint32_t hundredths = k % 100;
    return hundredths ? entry[0] + (entry[1] - entry[0]) * hundredths / 100 : entry[0];
}

/* J */
uint32_t index_of(uint32_t l);

/* Tests 2 to 10; 0 for a sound job. Where the indices are not wanted, they are not looked for in a display that is clearly wide. */
uint32_t read_job(const uint8_t *record, size_t n, struct job *job, bool indices);

/* F(0) to F(M), and t(0) to t(255). */
void fill_curve(const struct job *job, uint32_t *curve);
void fill_targets(const struct job *job, uint32_t *targets);

struct yepidlaw_nearest nearest_in_c(const uint8_t *record, size_t n, uint16_t *table, size_t m);
struct yepidlaw_even even_in_c(const uint8_t *record, size_t n, uint16_t *table, size_t m, uint32_t *work, size_t k);
struct yepidlaw_check check_in_c(const uint8_t *record, size_t n, int32_t *deviations, size_t m);

#endif
