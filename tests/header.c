/* Calls the library by its header alone: a line 'OPERATION LENT WORDS BYTES' and so many bytes in, the result and all that was lent out, for each job.
 * Of the words lent to the even table, the number of those that changed and should not have is given. */
#include <stdio.h>
#include <stdlib.h>
#include <string.h>

/* Twice, as a program may. */
#include "yepidlaw.h"
#include "yepidlaw.h"

/* The layout and the types that the library has, or this does not compile. */
#define FIELD(result, type, name, place) \
    typedef char result##_##name##_place[offsetof(struct yepidlaw_##result, name) == (place) ? 1 : -1]; \
    static type *result##_##name(struct yepidlaw_##result *r) { return &r->name; }
FIELD(nearest, uint32_t, refusal, 0)
FIELD(nearest, uint32_t, jlo, 4)
FIELD(nearest, uint32_t, jhi, 8)
FIELD(nearest, uint32_t, range, 12)
FIELD(nearest, uint32_t, room_high, 16)
FIELD(nearest, uint32_t, error, 20)
FIELD(even, uint32_t, refusal, 0)
FIELD(even, uint64_t, worst_step, 8)
FIELD(check, uint32_t, refusal, 0)
FIELD(check, uint32_t, verdict, 4)

typedef char whole_nearest[sizeof(struct yepidlaw_nearest) == 24 ? 1 : -1];
typedef char whole_even[sizeof(struct yepidlaw_even) == 16 ? 1 : -1];
typedef char whole_check[sizeof(struct yepidlaw_check) == 8 ? 1 : -1];
typedef struct yepidlaw_nearest nearest_call(const uint8_t *, size_t, uint16_t *, size_t);
typedef struct yepidlaw_even even_call(const uint8_t *, size_t, uint16_t *, size_t, uint32_t *, size_t);
typedef struct yepidlaw_check check_call(const uint8_t *, size_t, int32_t *, size_t);
static nearest_call *const declared_nearest = yepidlaw_nearest;
static even_call *const declared_even = yepidlaw_even;
static check_call *const declared_check = yepidlaw_check;

/* Each field is a place of its own. */
static int fields_are_apart(void) {
    struct yepidlaw_nearest n;
    struct yepidlaw_even e;
    struct yepidlaw_check c;
    return nearest_refusal(&n) != nearest_jlo(&n) && nearest_jhi(&n) != nearest_range(&n) && nearest_room_high(&n) != nearest_error(&n)
        && (void *)even_refusal(&e) != (void *)even_worst_step(&e) && check_refusal(&c) != check_verdict(&c);
}

/* What is lent holds this before the call. */
static uint32_t noise(size_t i) {
    return 40503u * (uint32_t)i + 12345u;
}

/* So many entries of a table, or null. */
static uint16_t *lent_table(size_t entries) {
    uint16_t *table = entries ? malloc(entries * sizeof *table) : NULL;
    for (size_t i = 0; table && i < entries; i++) {
        table[i] = (uint16_t)noise(i);
    }
    return table;
}

/* Ends the line of a table. */
static void print_and_free(uint16_t *table, size_t entries) {
    printf(" table");
    for (size_t i = 0; i < entries; i++) {
        printf(" %u", table[i]);
    }
    printf("\n");
    free(table);
}

static int nearest(const uint8_t *record, size_t bytes, size_t entries) {
    uint16_t *table = lent_table(entries);
    if (entries && !table) {
        return 0;
    }
    const struct yepidlaw_nearest r = declared_nearest(record, bytes, table, entries);
    printf("refusal %u jlo %u jhi %u range %u room_high %u error %u", r.refusal, r.jlo, r.jhi, r.range, r.room_high, r.error);
    print_and_free(table, entries);
    return 1;
}

static int even(const uint8_t *record, size_t bytes, size_t entries, size_t words) {
    uint16_t *table = lent_table(entries);
    uint32_t *work = words ? malloc(words * sizeof *work) : NULL;
    if ((entries && !table) || (words && !work)) {
        return 0;
    }
    for (size_t i = 0; i < words; i++) {
        work[i] = noise(i);
    }
    const struct yepidlaw_even r = declared_even(record, bytes, table, entries, work, words);
    unsigned long changed = 0;
    for (size_t i = r.refusal ? 0 : 8192; i < words; i++) {
        changed += work[i] != noise(i);
    }
    printf("refusal %u worst_step %llu changed %lu", r.refusal, (unsigned long long)r.worst_step, changed);
    print_and_free(table, entries);
    free(work);
    return 1;
}

static int check(const uint8_t *record, size_t bytes, size_t places) {
    int32_t *deviations = places ? malloc(places * sizeof *deviations) : NULL;
    if (places && !deviations) {
        return 0;
    }
    for (size_t i = 0; i < places; i++) {
        deviations[i] = (int32_t)(noise(i) % 65536u) - 32768;
    }
    const struct yepidlaw_check r = declared_check(record, bytes, deviations, places);
    printf("refusal %u verdict %u deviations", r.refusal, r.verdict);
    for (size_t i = 0; i < places; i++) {
        printf(" %d", (int)deviations[i]);
    }
    printf("\n");
    free(deviations);
    return 1;
}

int main(void) {
    char operation[8];
    unsigned long lent, words, bytes;
    if (!fields_are_apart()) {
        return 3;
    }
    while (scanf("%7s %lu %lu %lu%*1[\n]", operation, &lent, &words, &bytes) == 4) {
        uint8_t *record = bytes ? malloc(bytes) : NULL;
        if ((bytes && !record) || fread(record, 1, bytes, stdin) != bytes) {
            return 2;
        }
        const int called = strcmp(operation, "check") == 0 ? check(record, bytes, lent)
            : strcmp(operation, "even") == 0 ? even(record, bytes, lent, words)
            : nearest(record, bytes, lent);
        if (!called) {
            return 2;
        }
        free(record);
    }
    return 0;
}
