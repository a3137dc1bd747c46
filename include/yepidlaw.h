/* Yepidlaw: calibrates the screens that radiologists read from, after DICOM PS3.14.
 *
 * Each call takes a job record of any bytes and slices that the caller lends; a slice is a pointer to its first element and the number
 * of its elements; the pointer may be null where that number is 0. So many elements must be there, aligned, and no two slices of a call may overlap;
 * nothing else is asked of the caller.
 *
 * Luminances are in units of 0.0001 cd/m², JND indices in hundredths of a JND, deviations in parts per thousand.
 *
 * A call that is refused gives one of these numbers and changes nothing that was lent: the first that holds, but of 2 and 3 the one that is
 * met first when the bytes are read from front to back.
 *
 *    1  too few entries, words or places are lent
 *    2  the bytes end before the record does
 *    3  a section has a number of items that it cannot have
 *    4  bytes are left over
 *    5  a setting or a lamp is out of its range
 *    6  the drive levels do not rise strictly from 0 to 2^b - 1
 *    7  the luminances of the sweep fall somewhere
 *    8  the darkest level, with the room light that a contact meter does not see, is below Table B-1
 *    9  the brightest level, with that light, is above it
 *   10  the two are fewer than 100 JND apart
 *   11  "no table": some P-value has no drive level within the allowed error of its target
 *   12  a check reading, with that light, is outside Table B-1
 *   13  the first and the last check reading are fewer than 100 JND apart, or fall */
#ifndef YEPIDLAW_H
#define YEPIDLAW_H

#include <stddef.h>
#include <stdint.h>

#ifdef __cplusplus
extern "C" {
#endif

/* The figures of a nearest table. */
struct yepidlaw_nearest {
    uint32_t refusal;   /* 0: the table was made; else the number of the refusal, 1 to 10, and every other field is 0 */
    uint32_t jlo;       /* JND index of the darkest drive level, hundredths of a JND, 100 to 102,300 */
    uint32_t jhi;       /* JND index of the brightest drive level, hundredths of a JND, 100 to 102,300 */
    uint32_t range;     /* jhi - jlo, hundredths of a JND, at least 10,000 */
    uint32_t room_high; /* the room mark: 0 low, 1 high */
    uint32_t error;     /* the largest distance of an entry's luminance from its target, units of 0.0001 cd/m² */
};

/* The nearest table of a job record.
 *
 * record, n   the job record and its number of bytes, any bytes
 * table, m    the entries lent for the table and their number; fewer than 256 are refused, with number 1
 *
 * Where refusal is 0, table[P] is the drive level of P-value P, 0 to 255, and entries from 256 on are as they were.
 * Else no entry was changed. */
struct yepidlaw_nearest yepidlaw_nearest(const uint8_t *record, size_t n, uint16_t *table, size_t m);

/* The figure of an even table. */
struct yepidlaw_even {
    uint32_t refusal;    /* 0: the table was made; else the number of the refusal, 1 to 11, and worst_step is 0 */
    uint64_t worst_step; /* the largest deviation of a step of luminance from the step of its targets, parts per thousand, rounded up */
};

/* The even table of a job record: of the tables that never fall and keep each P-value within the allowed error of its target, the one with the
 * least worst step; of several, the one with the lower drive level at the first P-value where they differ.
 *
 * record, n   the job record and its number of bytes, any bytes
 * table, m    the entries lent for the table and their number; fewer than 256 are refused, with number 1
 * work, k     the words lent as working space and their number; fewer than 8,192 are refused, with number 1
 *
 * Where refusal is 0, table[P] is the drive level of P-value P, 0 to 255, and entries from 256 on are as they were. So are words from 8,192 on; those
 * before them may hold anything, before the call and after it.
 * Else no entry and no word was changed. */
struct yepidlaw_even yepidlaw_even(const uint8_t *record, size_t n, uint16_t *table, size_t m, uint32_t *work, size_t k);

/* The verdict of a contrast check. */
struct yepidlaw_check {
    uint32_t refusal; /* 0: the check was made, or the record holds none; else the number of the refusal, 1 to 10, 12 or 13, and verdict is 0 */
    uint32_t verdict; /* 0 not measured, the record holds no check readings; 1 pass; 2 fail */
};

/* The contrast check of a job record: 18 grey patches, those of P-values 0, 15, 30 and so on to 255, and 17 pairs of neighbours.
 *
 * record, n       the job record and its number of bytes, any bytes
 * deviations, m   the places lent for the deviations and their number; fewer than 17 are refused, with number 1
 *
 * Where refusal is 0 and verdict is not, deviations[i] is how far the contrast between the patches i and i + 1 is from the one expected, i from 0
 * to 16, in parts per thousand of that one: signed, negative where it is below the one expected (-1000 where both patches are equal, less where the
 * next one is darker), rounded toward minus infinity. Places from 17 on are as they were.
 * Else no place was changed. The verdict is that of the deviations before they are rounded: at most 10 % either way for a primary display, 20 % for
 * a secondary one. */
struct yepidlaw_check yepidlaw_check(const uint8_t *record, size_t n, int32_t *deviations, size_t m);

#ifdef __cplusplus
}
#endif

#endif
