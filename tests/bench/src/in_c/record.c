/* The job record: tests 2 to 10. */
#include "engine.h"

struct section {
    const uint8_t *items;
    size_t count;
};

enum { SETTINGS, LAMPS, SWEEP, CHECK, SECTIONS };

static bool permits(int section, size_t count) {
    switch (section) {
    case SETTINGS:
        return count == 5;
    case LAMPS:
        return count <= 8;
    case SWEEP:
        return 2 <= count && count <= LEVELS;
    default:
        return count == 0 || count == PATCHES;
    }
}

/* Tests 2 to 4. */
static uint32_t find_sections(const uint8_t *record, size_t n, struct section *sections) {
    static const size_t widths[SECTIONS] = {2, 2, 6, 4};
    size_t at = 0;
    for (int i = 0; i < SECTIONS; i++) {
        if (n - at < 2) {
            return 2;
        }
        const size_t count = u16_at(record + at);
        if (!permits(i, count)) {
            return 3;
        }
        at += 2;
        if (n - at < count * widths[i]) {
            return 2;
        }
        sections[i] = (struct section){record + at, count};
        at += count * widths[i];
    }
    return at < n ? 4 : 0;
}

/* Test 5. */
static uint32_t read_settings(const uint8_t *settings, struct section lamps, struct job *job) {
    const uint32_t depth = u16_at(settings), meter = u16_at(settings + 2), class = u16_at(settings + 4);
    const uint32_t reflectance = u16_at(settings + 6), tolerance = u16_at(settings + 8);
    if (depth < 8 || 10 < depth || 1 < meter || class < 1 || 2 < class || 1000 < reflectance || 1000 < tolerance) {
        return 5;
    }
    uint32_t lux = 0;
    for (size_t i = 0; i < lamps.count; i++) {
        const uint32_t lamp = u16_at(lamps.items + 2 * i);
        if (2000 < lamp) {
            return 5;
        }
        lux += lamp;
    }
    job->depth = depth;
    job->class = class;
    job->tolerance = tolerance;
    job->room = lux * reflectance;
    job->added = meter == 0 ? job->room : 0;
    return 0;
}

/* Tests 6 and 7. */
static uint32_t judge_sweep(const struct job *job) {
    uint32_t ddl = ddl_at(job, 0), luminance = reading_at(job, 0);
    if (ddl != 0 || ddl_at(job, job->readings - 1) != (1u << job->depth) - 1) {
        return 6;
    }
    bool falls = false;
    for (size_t i = 1; i < job->readings; i++) {
        const uint32_t next_ddl = ddl_at(job, i), next_luminance = reading_at(job, i);
        if (next_ddl <= ddl) {
            return 6;
        }
        falls |= next_luminance < luminance;
        ddl = next_ddl;
        luminance = next_luminance;
    }
    return falls ? 7 : 0;
}

/* Tests 8 to 10 pass, as T(1), T(200), T(300) and T(1023) alone tell. */
static bool is_clearly_wide(const struct job *job) {
    const uint64_t black = (uint64_t)job->added + reading_at(job, 0), white = (uint64_t)job->added + reading_at(job, job->readings - 1);
    return DARKEST <= black && black < JND_200 && JND_300 <= white && white <= BRIGHTEST;
}

/* Tests 8 to 10. */
static uint32_t find_range(struct job *job) {
    const uint64_t black = (uint64_t)job->added + reading_at(job, 0), white = (uint64_t)job->added + reading_at(job, job->readings - 1);
    if (black < DARKEST) {
        return 8;
    }
    if (BRIGHTEST < white) {
        return 9;
    }
    job->low = index_of((uint32_t)black);
    job->high = index_of((uint32_t)white);
    return job->high - job->low < LEAST_RANGE ? 10 : 0;
}

uint32_t read_job(const uint8_t *record, size_t n, struct job *job, bool indices) {
    struct section sections[SECTIONS];
    uint32_t number = find_sections(record, n, sections);
    if (number) {
        return number;
    }
    job->sweep = sections[SWEEP].items;
    job->readings = sections[SWEEP].count;
    job->check = sections[CHECK].items;
    job->patches = sections[CHECK].count;
    number = read_settings(sections[SETTINGS].items, sections[LAMPS], job);
    if (!number) {
        number = judge_sweep(job);
    }
    return number || (!indices && is_clearly_wide(job)) ? number : find_range(job);
}
