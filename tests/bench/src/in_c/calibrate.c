/* The program: the report of the record on standard input. */
#include <unistd.h>

#include "engine.h"

/* More than the longest report. */
enum { LONGEST_REPORT = 4096 };

static char *put_word(char *at, const char *word) {
    while (*word) {
        *at++ = *word++;
    }
    return at;
}

static char *put_number(char *at, uint64_t n) {
    char digits[20];
    size_t count = 0;
    do {
        digits[count++] = (char)('0' + n % 10);
        n /= 10;
    } while (n);
    while (count) {
        *at++ = digits[--count];
    }
    return at;
}

static char *put_field(char *at, uint64_t n) {
    *at++ = ' ';
    return put_number(at, n);
}

static char *put_figures(char *at, const struct yepidlaw_nearest *nearest, const struct yepidlaw_even *even, const struct yepidlaw_check *check) {
    static const char *const verdicts[] = {"\ncheck none\n", "\ncheck pass\n", "\ncheck fail\n"};
    at = put_field(put_field(put_field(put_word(at, "range"), nearest->jlo), nearest->jhi), nearest->range);
    at = put_word(at, nearest->room_high ? "\nroom high\n" : "\nroom low\n");
    at = put_field(put_word(at, "even"), even->worst_step);
    return put_word(at, verdicts[check->verdict]);
}

/* The whole report; where it ends. */
static char *put_report(char *at, const uint8_t *record, size_t n) {
    static uint32_t work[WORDS_OF_ROW * VALUES];
    uint16_t nearest_table[VALUES], even_table[VALUES];
    int32_t deviations[PAIRS];
    struct yepidlaw_even even = {0};
    struct yepidlaw_check check = {0};
    const struct yepidlaw_nearest nearest = nearest_in_c(record, n, nearest_table, VALUES);
    uint32_t number = nearest.refusal;
    if (!number) {
        even = even_in_c(record, n, even_table, VALUES, work, WORDS_OF_ROW * VALUES);
        number = even.refusal;
    }
    if (!number) {
        check = check_in_c(record, n, deviations, PAIRS);
        number = check.refusal;
    }
    if (number) {
        at = put_field(put_word(at, "refused"), number);
        *at++ = '\n';
        return at;
    }
    at = put_figures(at, &nearest, &even, &check);
    for (size_t p = 0; p < VALUES; p++) {
        at = put_field(put_field(put_number(at, p), nearest_table[p]), even_table[p]);
        *at++ = '\n';
    }
    return at;
}

int main(void) {
    static uint8_t record[LONGEST_RECORD + 1];
    static char report[LONGEST_REPORT];
    size_t n = 0;
    ssize_t got = 1;
    while (n < sizeof record && 0 < got) {
        got = read(STDIN_FILENO, record + n, sizeof record - n);
        n += 0 < got ? (size_t)got : 0;
    }
    const size_t length = (size_t)(put_report(report, record, n) - report);
    return write(STDOUT_FILENO, report, length) == (ssize_t)length ? 0 : 1;
}
