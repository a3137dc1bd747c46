/* Reads a job record, from the file named or from standard input, and prints what the engine makes of it. From the repository's root:
 *
 *     gcc -std=c11 -O2 -I include -o summary examples/c/main.c crates/yepidlaw/out/libyepidlaw.a
 *     ./summary RECORD
 *
 * The status is 0 where the job is sound, 1 where it is refused and 2 where it cannot be read. */
#include <stdio.h>

#include "yepidlaw.h"

enum { ENTRIES = 256, WORDS = 8192, PLACES = 17 };
/* One more than the longest record has, so that bytes after it are seen. */
enum { MOST_BYTES = 6251 };

/* What each refusal means, by its number. */
static const char *const MEANINGS[] = {
    "",
    "too few entries, words or places are lent",
    "the record ends too early",
    "a section has a number of items that it cannot have",
    "bytes are left over after the check section",
    "a setting or a lamp is out of its range",
    "the drive levels do not rise strictly from 0 to the last one",
    "the luminances of the sweep fall somewhere",
    "the darkest level is below Table B-1",
    "the brightest level is above Table B-1",
    "the darkest and the brightest level are fewer than 100 JND apart",
    "some P-value has no drive level within the allowed error",
    "a check reading is outside Table B-1",
    "the first and the last check reading are fewer than 100 JND apart, or fall",
};

/* All that is lent to the three operations, and what they gave. */
struct summary {
    uint16_t nearest_table[ENTRIES], even_table[ENTRIES];
    int32_t deviations[PLACES];
    struct yepidlaw_nearest nearest;
    struct yepidlaw_even even;
    struct yepidlaw_check check;
};

static void make(const uint8_t *record, size_t n, struct summary *summary) {
    static uint32_t work[WORDS];
    summary->nearest = yepidlaw_nearest(record, n, summary->nearest_table, ENTRIES);
    summary->even = yepidlaw_even(record, n, summary->even_table, ENTRIES, work, WORDS);
    summary->check = yepidlaw_check(record, n, summary->deviations, PLACES);
}

static void print_refusal(uint32_t number) {
    printf("refused %u, %s\n", (unsigned)number, MEANINGS[number]);
}

/* JND indices are in hundredths, luminances in units of 0.0001 cd/m². */
static void print_nearest(const struct yepidlaw_nearest *nearest) {
    printf("JND index       %u.%02u to %u.%02u, range %u.%02u\n", (unsigned)nearest->jlo / 100, (unsigned)nearest->jlo % 100, (unsigned)nearest->jhi / 100,
           (unsigned)nearest->jhi % 100, (unsigned)nearest->range / 100, (unsigned)nearest->range % 100);
    printf("room            %s\n", nearest->room_high ? "high" : "low");
    printf("nearest table   largest error %u.%04u cd/m²\n", (unsigned)nearest->error / 10000, (unsigned)nearest->error % 10000);
}

static void print_even(const struct yepidlaw_even *even) {
    printf("even table      ");
    if (even->refusal) {
        print_refusal(even->refusal);
    } else {
        printf("worst step %llu parts per thousand\n", (unsigned long long)even->worst_step);
    }
}

static void print_check(const struct yepidlaw_check *check, const int32_t *deviations) {
    static const char *const verdicts[] = {"not measured", "pass", "fail"};
    printf("contrast check  ");
    if (check->refusal) {
        print_refusal(check->refusal);
        return;
    }
    printf("%s\n", verdicts[check->verdict]);
    if (check->verdict) {
        printf("deviations     ");
        for (int i = 0; i < PLACES; i++) {
            printf(" %d", (int)deviations[i]);
        }
        printf(" parts per thousand\n");
    }
}

static void print_entries(const struct summary *summary) {
    printf("P-value  nearest  even\n");
    for (int p = 0; p < ENTRIES; p += 51) {
        printf("%7d  %7u  ", p, (unsigned)summary->nearest_table[p]);
        if (summary->even.refusal) {
            printf("   -\n");
        } else {
            printf("%4u\n", (unsigned)summary->even_table[p]);
        }
    }
}

/* Every operation gives refusals 2 to 10 alike. */
static int print_summary(const struct summary *summary) {
    if (summary->nearest.refusal) {
        print_refusal(summary->nearest.refusal);
        return 1;
    }
    print_nearest(&summary->nearest);
    print_even(&summary->even);
    print_check(&summary->check, summary->deviations);
    print_entries(summary);
    return summary->even.refusal || summary->check.refusal;
}

int main(int argc, char **argv) {
    static uint8_t record[MOST_BYTES];
    static struct summary summary;
    FILE *file = argc < 2 ? stdin : fopen(argv[1], "rb");
    if (!file) {
        perror(argv[1]);
        return 2;
    }
    const size_t n = fread(record, 1, MOST_BYTES, file);
    if (ferror(file)) {
        perror(argc < 2 ? "standard input" : argv[1]);
        return 2;
    }
    fclose(file);
    make(record, n, &summary);
    return print_summary(&summary);
}
