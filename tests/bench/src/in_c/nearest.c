/* The nearest table. */
#include "engine.h"

/* One walk along curve and targets; the largest error. The last target is at most the last level's luminance. */
static uint32_t fill_table(const uint32_t *curve, const uint32_t *targets, uint16_t *table) {
    /* The lowest level that is not darker than the target, and the lowest that is as bright as the level before it. */
    size_t above = 0, below = 0;
    uint32_t largest = 0;
    for (size_t p = 0; p < VALUES; p++) {
        const uint32_t target = targets[p];
        for (; curve[above] < target; above++) {
            if (curve[below] < curve[above]) {
                below = above;
            }
        }
        const uint32_t darker = curve[below] < target ? target - curve[below] : curve[below] - target, brighter = curve[above] - target;
        const uint32_t error = darker <= brighter ? darker : brighter;
        table[p] = (uint16_t)(darker <= brighter ? below : above);
        if (largest < error) {
            largest = error;
        }
    }
    return largest;
}

struct yepidlaw_nearest nearest_in_c(const uint8_t *record, size_t n, uint16_t *table, size_t m) {
    struct job job;
    const uint32_t number = m < VALUES ? 1 : read_job(record, n, &job, true);
    if (number) {
        return (struct yepidlaw_nearest){.refusal = number};
    }
    uint32_t curve[LEVELS], targets[VALUES];
    fill_curve(&job, curve);
    fill_targets(&job, targets);
    return (struct yepidlaw_nearest){
        .jlo = job.low,
        .jhi = job.high,
        .range = job.high - job.low,
        .room_high = reading_at(&job, 0) < 4 * job.room,
        .error = fill_table(curve, targets, table),
    };
}
