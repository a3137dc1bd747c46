/* Calls the library with lengths of more than 32 bits, on memory of which only the first pages are ever touched: a record on standard input, and the
 * refusal of each call on standard output. */
#define _DEFAULT_SOURCE
#include <stdio.h>
#include <stdlib.h>
#include <string.h>
#include <sys/mman.h>

#include "yepidlaw.h"

enum { LONGEST = 6250 };

static void *lent(size_t elements, size_t size) {
    void *all = mmap(NULL, elements * size, PROT_READ | PROT_WRITE, MAP_PRIVATE | MAP_ANONYMOUS | MAP_NORESERVE, -1, 0);
    if (all == MAP_FAILED) {
        exit(2);
    }
    return all;
}

int main(void) {
    static uint16_t table[256];
    static uint32_t work[8192];
    static int32_t deviations[17];
    static uint8_t record[LONGEST];
    const size_t n = fread(record, 1, LONGEST, stdin), many = (size_t)1 << 32;
    uint8_t *bytes = lent(many + n, 1);
    memcpy(bytes, record, n);
    printf("bytes: nearest %u\n", yepidlaw_nearest(bytes, many + n, table, 256).refusal);
    printf("bytes: even %u\n", yepidlaw_even(bytes, many + n, table, 256, work, 8192).refusal);
    printf("bytes: check %u\n", yepidlaw_check(bytes, many + n, deviations, 17).refusal);
    uint16_t *entries = lent(many, sizeof *entries);
    printf("entries: nearest %u\n", yepidlaw_nearest(record, n, entries, many).refusal);
    printf("entries: even %u\n", yepidlaw_even(record, n, entries, many, work, 8192).refusal);
    printf("words: even %u\n", yepidlaw_even(record, n, table, 256, lent(many, sizeof *work), many).refusal);
    printf("places: check %u\n", yepidlaw_check(record, n, lent(many, sizeof *deviations), many).refusal);
    return 0;
}
