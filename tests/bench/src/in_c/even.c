/* The even table. */
#include <string.h>

#include "engine.h"

/* No step of luminance is larger. */
static const uint64_t LARGEST_STEP = 1 << 26;

struct even_values {
    uint32_t made;
    uint64_t worst_step;
};

static bool is_lit(const uint32_t *row, size_t d) {
    return row[d / 32] >> d % 32 & 1;
}

static void light(uint32_t *row, size_t d) {
    row[d / 32] |= 1u << d % 32;
}

static uint64_t step_deviation(uint32_t f, uint32_t g) {
    const uint64_t apart = f < g ? g - f : f - g;
    return (1000 * apart + g - 1) / g;
}

/* The levels allowed at each target, starts[p] to ends[p] - 1, and the worst step of the lowest of them; false where a target has none. */
static bool find_runs(const uint32_t *curve, size_t levels, const uint32_t *targets, size_t values, unsigned tolerance, uint16_t *starts, uint16_t *ends,
                      uint64_t *bound) {
    size_t from = 0, to = 0;
    *bound = 0;
    for (size_t p = 0; p < values; p++) {
        const uint32_t target = targets[p], error = (uint32_t)((uint64_t)tolerance * target / 1000);
        const size_t before = from;
        while (from < levels && curve[from] < target - error) {
            from++;
        }
        while (to < levels && curve[to] <= target + error) {
            to++;
        }
        if (to <= from) {
            return false;
        }
        if (p) {
            const uint64_t deviation = step_deviation(curve[from] - curve[before], target - targets[p - 1]);
            if (*bound < deviation) {
                *bound = deviation;
            }
        }
        starts[p] = (uint16_t)from;
        ends[p] = (uint16_t)to;
    }
    return true;
}

/* The steps whose deviation is at most k. */
struct span {
    uint32_t least, most;
};

static struct span span_of(uint64_t k, uint32_t g) {
    const uint64_t wanted = (uint64_t)1000 * g, apart = k * g, most = (wanted + apart) / 1000;
    return (struct span){
        apart < wanted ? (uint32_t)((wanted - apart + 999) / 1000) : 0,
        (uint32_t)(most < LARGEST_STEP ? most : LARGEST_STEP),
    };
}

/* Lights the levels from `from` to `to` - 1 that have a step of the span to a lit level of the next row, word by word; whether there is one. */
static bool fill_row(const uint32_t *curve, uint32_t *row, size_t from, size_t to, const uint32_t *next, size_t next_from, size_t next_to, struct span span) {
    const size_t words = (to + 31) / 32;
    size_t d = from, q = next_from, word = from / 32;
    bool some = false;
    for (; word < words && q < next_to; word++) {
        const size_t whole = 32 * word + 32, end = whole < to ? whole : to;
        uint32_t bits = 0;
        for (; d < end; d++) {
            const uint32_t least = curve[d] + span.least;
            if (q < d) {
                q = d;
            }
            while (q < next_to && (curve[q] < least || !is_lit(next, q))) {
                q++;
            }
            if (next_to <= q) {
                break;
            }
            if (curve[q] - curve[d] <= span.most) {
                bits |= 1u << d % 32;
            }
        }
        row[word] = bits;
        some |= bits != 0;
    }
    memset(row + word, 0, (words - word) * sizeof *row);
    return some;
}

/* Fills the rows before the last one; whether some table has no step deviation above k. */
static bool fill_rows(const uint32_t *curve, const uint32_t *targets, size_t values, const uint16_t *starts, const uint16_t *ends, uint64_t k, uint32_t *work) {
    for (size_t p = values - 1; 0 < p--;) {
        uint32_t *row = work + WORDS_OF_ROW * p;
        const struct span span = span_of(k, targets[p + 1] - targets[p]);
        if (!fill_row(curve, row, starts[p], ends[p], row + WORDS_OF_ROW, starts[p + 1], ends[p + 1], span)) {
            return false;
        }
    }
    return true;
}

/* The lowest lit level at each target whose step from the one before fits. */
static void write_table(const uint32_t *curve, const uint32_t *targets, size_t values, const uint16_t *starts, uint64_t k, const uint32_t *work, uint16_t *table) {
    size_t d = starts[0];
    while (!is_lit(work, d)) {
        d++;
    }
    table[0] = (uint16_t)d;
    for (size_t p = 1; p < values; p++) {
        const uint32_t *row = work + WORDS_OF_ROW * p;
        const uint32_t least = curve[d] + span_of(k, targets[p] - targets[p - 1]).least;
        if (d < starts[p]) {
            d = starts[p];
        }
        while (curve[d] < least || !is_lit(row, d)) {
            d++;
        }
        table[p] = (uint16_t)d;
    }
}

struct even_values even_fill_in_c(const uint32_t *curve, size_t levels, const uint32_t *targets, size_t values, uint16_t tolerance, uint16_t *starts,
                                  uint16_t *ends, uint16_t *table, uint32_t *work) {
    uint64_t low = 0, high;
    if (!find_runs(curve, levels, targets, values, tolerance, starts, ends, &high)) {
        return (struct even_values){0, 0};
    }
    for (size_t d = starts[values - 1]; d < ends[values - 1]; d++) {
        light(work + WORDS_OF_ROW * (values - 1), d);
    }
    bool ready = false;
    while (low < high) {
        const uint64_t middle = low + (high - low) / 2;
        ready = fill_rows(curve, targets, values, starts, ends, middle, work);
        if (ready) {
            high = middle;
        } else {
            low = middle + 1;
        }
    }
    if (!ready) {
        fill_rows(curve, targets, values, starts, ends, low, work);
    }
    write_table(curve, targets, values, starts, low, work, table);
    return (struct even_values){1, low};
}

struct yepidlaw_even even_in_c(const uint8_t *record, size_t n, uint16_t *table, size_t m, uint32_t *work, size_t k) {
    struct job job;
    const uint32_t number = m < VALUES || k < WORDS_OF_ROW * VALUES ? 1 : read_job(record, n, &job, true);
    if (number) {
        return (struct yepidlaw_even){.refusal = number};
    }
    uint32_t curve[LEVELS], targets[VALUES];
    fill_curve(&job, curve);
    fill_targets(&job, targets);
    uint16_t starts[VALUES], ends[VALUES];
    const struct even_values made = even_fill_in_c(curve, (size_t)1 << job.depth, targets, VALUES, (uint16_t)job.tolerance, starts, ends, table, work);
    return (struct yepidlaw_even){.refusal = made.made ? 0 : 11, .worst_step = made.worst_step};
}
