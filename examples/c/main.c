/* Two-minute figures of a probe, by the rollup core, when it went over a limit, its log merged with
 * another, when it went away, and what a refusal looks like.
 * Build and run: make -C examples/c run */
#include <inttypes.h>
#include <stdio.h>
#include <string.h>

#include "harzoulin.h"

enum { READINGS = 5, POINTS = 3, SERVER = 3, BOTH = READINGS + SERVER };

static const int64_t timestamps[READINGS] = {60000, 120000, 180000, 300000, 360000};
static const double values[READINGS] = {16.5, 16.75, 17.0, 18.5, 18.0};

/* What the server kept of the same probe. */
static const int64_t server_timestamps[SERVER] = {180000, 240000, 300000};
static const double server_values[SERVER] = {17.0, 17.5, 18.5};

/* Runs a rollup of some values over two-minute windows that end at minutes 2, 4 and 6. */
static uint64_t run_on(const uint64_t *patterns, uint32_t rollup, double first, int64_t step,
                       uint64_t *figures, uint64_t *count, uint64_t *index) {
    uint64_t prepared[READINGS];
    int64_t remaining[READINGS];
    double work[2 * READINGS];
    return harzoulin_run(timestamps, READINGS, patterns, READINGS, HARZOULIN_STEP_NONE, rollup,
                         first, 0.0, 120000, 360000, step, 0, false, false, 0, 0, 0, 0, figures,
                         POINTS, prepared, READINGS, remaining, READINGS, work, 2 * READINGS, count,
                         index);
}

/* The same of the probe's own values. */
static uint64_t run(uint32_t rollup, double first, int64_t step, double *figures, uint64_t *count,
                    uint64_t *index) {
    return run_on((const uint64_t *)values, rollup, first, step, (uint64_t *)figures, count, index);
}

/* Tells at which of the minutes the probe was away, had it been unplugged after minute 3. A mark is
 * a NaN, which equals nothing: it is kept as bits and told by them. */
static uint64_t went_away(void) {
    uint64_t patterns[READINGS], last[POINTS], readings, count, index;
    memcpy(patterns, values, sizeof patterns);
    patterns[READINGS - 2] = HARZOULIN_STALE;
    patterns[READINGS - 1] = HARZOULIN_STALE;
    uint64_t refused =
        run_on(patterns, HARZOULIN_ROLLUP_DEFAULT, 0.0, 120000, last, &readings, &index);
    if (refused) {
        return refused;
    }
    for (int i = 0; i < POINTS; i++) {
        if (last[i] == HARZOULIN_STALE) {
            printf("away at minute %d\n", 2 * i + 2);
        }
    }
    /* For all other rollups the marks are taken out: three readings remain, each in one window. */
    refused = run_on(patterns, HARZOULIN_ROLLUP_AVG, 0.0, 120000, last, &count, &index);
    printf("%" PRIu64 " readings scanned with the marks, %" PRIu64 " without\n", readings, count);
    return refused;
}

/* Tells when the probe went over 17 degrees or back under, and its reading nearest to minute 4. */
static uint64_t find(void) {
    uint64_t crossed[READINGS], count, found, nearest, index;
    uint64_t refused = harzoulin_crossings(timestamps, READINGS, (const uint64_t *)values, READINGS,
                                           17.0, crossed, READINGS, &count, &index);
    if (refused) {
        return refused;
    }
    for (uint64_t i = 0; i < count; i++) {
        const char *side = values[crossed[i]] < 17.0 ? "under" : "at or over";
        printf("%s 17 from minute %" PRId64 " on\n", side, timestamps[crossed[i]] / 60000);
    }
    refused = harzoulin_nearest(timestamps, READINGS, 240000, &found, &nearest, &index);
    if (!refused && found) {
        printf("nearest to minute 4: minute %" PRId64 "\n", timestamps[nearest] / 60000);
    }
    return refused;
}

/* Tells how many readings the two logs have together, and the one at minute 4. */
static uint64_t merge(void) {
    int64_t merged_timestamps[BOTH];
    double merged_values[BOTH];
    uint64_t length, index;
    uint64_t refused =
        harzoulin_merge(timestamps, READINGS, (const uint64_t *)values, READINGS, server_timestamps,
                        SERVER, (const uint64_t *)server_values, SERVER, merged_timestamps, BOTH,
                        (uint64_t *)merged_values, BOTH, &length, &index);
    if (refused) {
        return refused;
    }
    printf("%" PRIu64 " readings from the two logs\n", length);
    for (uint64_t i = 0; i < length; i++) {
        if (merged_timestamps[i] == 240000) {
            printf("at minute 4: %.3f\n", merged_values[i]);
        }
    }
    return 0;
}

int main(void) {
    double averages[POINTS], medians[POINTS];
    uint64_t count, index;
    if (run(HARZOULIN_ROLLUP_AVG, 0.0, 120000, averages, &count, &index) ||
        run(HARZOULIN_ROLLUP_QUANTILE, 0.5, 120000, medians, &count, &index)) {
        return 1;
    }
    printf("minute  average  median\n");
    for (int i = 0; i < POINTS; i++) {
        printf("%6d  %7.3f  %6.3f\n", 2 * i + 2, averages[i], medians[i]);
    }
    printf("%" PRIu64 " readings scanned\n", count);
    if (find() || merge() || went_away()) {
        return 1;
    }
    uint64_t refused = run(HARZOULIN_ROLLUP_AVG, 0.0, 0, averages, &count, &index);
    printf("a step of 0 is refused with %" PRIu64 "\n", refused);
    return refused == HARZOULIN_REFUSED_STEP ? 0 : 1;
}
