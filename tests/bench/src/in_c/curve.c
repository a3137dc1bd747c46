/* The characteristic curve, the index of a luminance, the targets. */
#include "engine.h"

uint32_t index_of(uint32_t l) {
    uint32_t j = 1;
    for (uint32_t width = JNDS, half; 1 < width; width -= half) {
        half = width / 2;
        /* A product, since gcc makes a branch of a choice, and over many displays no processor foresees it. */
        j += (table_b1[j + half - 1] <= l) * half;
    }
    if (j == JNDS) {
        return 100 * JNDS;
    }
    const uint32_t *entry = table_b1 + j - 1;
    return 100 * j + (100 * (l - entry[0]) + 99) / (entry[1] - entry[0]);
}

void fill_curve(const struct job *job, uint32_t *curve) {
    const uint32_t added = job->added;
    uint32_t d = 0, luminance = reading_at(job, 0);
    curve[0] = added + luminance;
    for (size_t i = 1; i < job->readings; i++) {
        const uint32_t last = ddl_at(job, i), next = reading_at(job, i), levels = last - d;
        const uint64_t rise = next - luminance;
        for (uint32_t j = 1; j < levels; j++) {
            curve[d + j] = added + luminance + (uint32_t)(rise * j / levels);
        }
        curve[last] = added + next;
        d = last;
        luminance = next;
    }
}

void fill_targets(const struct job *job, uint32_t *targets) {
    const uint32_t range = job->high - job->low;
    for (uint32_t p = 0; p < VALUES; p++) {
        targets[p] = luminance_of(job->low + range * p / (VALUES - 1));
    }
}
