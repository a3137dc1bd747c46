/* The contrast check. */
#include "engine.h"

static int64_t floor_div(int64_t n, int64_t d) {
    const int64_t quotient = n / d;
    return quotient - (n % d < 0);
}

/* Test 12; the luminance of each patch. */
static bool read_patches(const struct job *job, uint32_t *patches) {
    for (size_t i = 0; i < PATCHES; i++) {
        const uint64_t shown = (uint64_t)job->added + u32_at(job->check + 4 * i);
        if (!in_table(shown)) {
            return false;
        }
        patches[i] = (uint32_t)shown;
    }
    return true;
}

/* One walk over the pairs; whether each is within one part in `parts`. */
static bool fill_deviations(const uint32_t *patches, uint32_t first, uint32_t range, int64_t parts, int32_t *deviations) {
    int64_t p = patches[0], c = luminance_of(first);
    bool passes = true;
    for (uint32_t i = 0; i < PAIRS; i++) {
        const int64_t s = patches[i + 1], h = luminance_of(first + range * (i + 1) / PAIRS);
        const int64_t y = (h - c) * (s + p), off = (s - p) * (h + c) - y;
        deviations[i] = (int32_t)floor_div(1000 * off, y);
        passes &= (off < 0 ? -off : off) * parts <= y;
        p = s;
        c = h;
    }
    return passes;
}

struct yepidlaw_check check_in_c(const uint8_t *record, size_t n, int32_t *deviations, size_t m) {
    struct job job;
    const uint32_t number = m < PAIRS ? 1 : read_job(record, n, &job, false);
    if (number || job.patches == 0) {
        return (struct yepidlaw_check){.refusal = number};
    }
    uint32_t patches[PATCHES];
    if (!read_patches(&job, patches)) {
        return (struct yepidlaw_check){.refusal = 12};
    }
    const uint32_t first = index_of(patches[0]), last = index_of(patches[PAIRS]);
    if (last < first + LEAST_RANGE) {
        return (struct yepidlaw_check){.refusal = 13};
    }
    const bool passes = fill_deviations(patches, first, last - first, job.class == 1 ? 10 : 5, deviations);
    return (struct yepidlaw_check){.verdict = passes ? 1 : 2};
}
