/* The library with one fault, by its number; `right_..` are its own functions. */
#include "yepidlaw.h"

struct yepidlaw_nearest right_yepidlaw_nearest(const uint8_t *record, size_t n, uint16_t *table, size_t m);
struct yepidlaw_even right_yepidlaw_even(const uint8_t *record, size_t n, uint16_t *table, size_t m, uint32_t *work, size_t k);
struct yepidlaw_check right_yepidlaw_check(const uint8_t *record, size_t n, int32_t *deviations, size_t m);

enum { DEPTH = 2, METER = 4, CLASS = 6, REFLECTANCE = 8, TOLERANCE = 10, LAMPS = 12, LONGEST = 8192 };

static uint32_t u16_at(const uint8_t *bytes) {
    return bytes[0] | (uint32_t)bytes[1] << 8;
}

/* Where the first reading of the sweep is, in a record whose sections are whole. */
static const uint8_t *sweep_of(const uint8_t *record) {
    return record + LAMPS + 4 + 2 * u16_at(record + LAMPS);
}

/* The record with another number in 16 bits. */
static const uint8_t *changed(const uint8_t *record, size_t n, size_t place, uint32_t value) {
    static uint8_t copy[LONGEST];
    for (size_t i = 0; i < n; i++) {
        copy[i] = record[i];
    }
    copy[place] = (uint8_t)value;
    copy[place + 1] = (uint8_t)(value >> 8);
    return copy;
}

/* The record that the operations are given. */
static const uint8_t *given(const uint8_t *record, size_t n) {
    if (n < LAMPS + 4 || LONGEST < n) {
        return record;
    }
    /* Fault 1: room light is added to telescopic readings too. */
    if (FAULT == 1 && u16_at(record + METER) == 1) {
        return changed(record, n, METER, 0);
    }
    /* Fault 2: a single lamp of 2,001 lux is taken for one of 2,000. */
    if (FAULT == 2 && u16_at(record + LAMPS) == 1 && u16_at(record + LAMPS + 2) == 2001) {
        return changed(record, n, LAMPS + 2, 2000);
    }
    return record;
}

/* Whether four times the room luminance is the first reading. */
static int is_at_mark(const uint8_t *record) {
    const uint8_t *sweep = sweep_of(record);
    uint32_t lux = 0;
    for (size_t i = 0; i < u16_at(record + LAMPS); i++) {
        lux += u16_at(record + LAMPS + 2 + 2 * i);
    }
    return 4 * lux * u16_at(record + REFLECTANCE) == (u16_at(sweep + 2) | u16_at(sweep + 4) << 16);
}

struct yepidlaw_nearest yepidlaw_nearest(const uint8_t *record, size_t n, uint16_t *table, size_t m) {
    struct yepidlaw_nearest r = right_yepidlaw_nearest(given(record, n), n, table, m);
    /* Fault 3: the index of the darkest level is one too high, from index 40,000 to 40,009. */
    if (FAULT == 3 && 40000 <= r.jlo && r.jlo <= 40009) {
        r.jlo++;
        r.range--;
    }
    /* Fault 4: levels that do not begin at 0 are refused before settings and lamps out of range. */
    if (FAULT == 4 && r.refusal == 5 && u16_at(sweep_of(record)) != 0) {
        r.refusal = 6;
    }
    /* Fault 5: entry 256 is written, where the last two entries are equal. */
    if (FAULT == 5 && r.refusal == 0 && 256 < m && table[254] == table[255]) {
        table[256] = table[255];
    }
    /* Fault 6: the room mark is high where four times the room luminance is the first reading. */
    if (FAULT == 6 && r.refusal == 0 && is_at_mark(record)) {
        r.room_high = 1;
    }
    return r;
}

struct yepidlaw_even yepidlaw_even(const uint8_t *record, size_t n, uint16_t *table, size_t m, uint32_t *work, size_t k) {
    record = given(record, n);
    /* Fault 7: the allowed error is one part too small, where a table keeps within that. */
    const uint32_t tolerance = TOLERANCE + 2 <= n && n <= LONGEST ? u16_at(record + TOLERANCE) : 0;
    if (FAULT == 7 && 0 < tolerance && tolerance <= 1000) {
        const struct yepidlaw_even smaller = right_yepidlaw_even(changed(record, n, TOLERANCE, tolerance - 1), n, table, m, work, k);
        if (smaller.refusal == 0) {
            return smaller;
        }
    }
    struct yepidlaw_even r = right_yepidlaw_even(record, n, table, m, work, k);
    /* Fault 8: the step deviation is rounded down, at depth 10 above 1,000. */
    if (FAULT == 8 && 1000 < r.worst_step && u16_at(record + DEPTH) == 10) {
        r.worst_step--;
    }
    /* Fault 9: a word is written where there is no table. */
    if (FAULT == 9 && r.refusal == 11) {
        work[8191] ^= 1;
    }
    return r;
}

/* Whether each deviation is within the limit of the class, as it is printed. */
static int printed_pass(const uint8_t *record, const int32_t *deviations) {
    const int32_t limit = u16_at(record + CLASS) == 1 ? 100 : 200;
    for (size_t i = 0; i < 17; i++) {
        if (deviations[i] < -limit || limit < deviations[i]) {
            return 0;
        }
    }
    return 1;
}

struct yepidlaw_check yepidlaw_check(const uint8_t *record, size_t n, int32_t *deviations, size_t m) {
    struct yepidlaw_check r = right_yepidlaw_check(given(record, n), n, deviations, m);
    /* Fault 10: the printed deviation is judged. */
    if (FAULT == 10 && r.verdict != 0) {
        r.verdict = printed_pass(record, deviations) ? 1 : 2;
    }
    /* Fault 11: the byte after the record is read, where the check is not measured. */
    if (FAULT == 11 && r.refusal == 0 && r.verdict == 0) {
        r.verdict = 0 * ((const volatile uint8_t *)record)[n];
    }
    return r;
}
