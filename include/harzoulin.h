/* The rollup core: figures from a series of readings. Build: tools/archive.
 *
 * A slice is a pointer and a length, the number of its entries. Times are milliseconds. A value is
 * the 64 bits of a binary64, so an array of doubles may be handed where a uint64_t * is asked; a
 * NaN that is written is 0x7FF8000000000000, but for the staleness mark, HARZOULIN_STALE, which the
 * two runs take as a value and default may answer.
 *
 * Each function returns one of enum harzoulin_refusal and sets *index: the first offending reading,
 * counted from 0, for refusals 3 to 5, else 0. Of harzoulin_nearest 3 with index 0 may also be of
 * the time that is asked for; of harzoulin_merge the index counts in the series that is refused. A
 * refusal leaves every slice as it was.
 *
 * A caller sees to three things. A slice has at least as many entries as its length says. No
 * pointer is null, not that of an empty slice either, which points to anything of its type; nothing
 * is read or written there. And what a call writes, slices and single places such as count and
 * index, overlaps nothing else that is handed to it; slices that it only reads may overlap.
 *
 * A call keeps nothing for a later one, so calls may run on several threads at once, if what each
 * of them writes is handed to no other. */
#ifndef HARZOULIN_H
#define HARZOULIN_H

#include <stdbool.h>
#include <stddef.h>
#include <stdint.h>

#ifdef __cplusplus
extern "C" {
#endif

/* The staleness mark, which Prometheus writes as the value of a series that went away. It is a NaN,
 * so it is told by its bits, and kept as bits where a double might be changed on its way. */
#define HARZOULIN_STALE UINT64_C(0x7FF0000000000002)

/* The preparing steps, for pre. Of the two that add a counter's restarts back, RESETS_ONCE corrects
 * each restart once; RESETS, the original's, corrects it again at each later value that is still
 * below the one before it as corrected. */
enum harzoulin_step {
    HARZOULIN_STEP_NONE = 0,
    HARZOULIN_STEP_RESETS = 1,
    HARZOULIN_STEP_DELTA = 2,
    HARZOULIN_STEP_DERIV = 3,
    HARZOULIN_STEP_INTERVALS = 4,
    HARZOULIN_STEP_RESETS_ONCE = 5
};

/* The rollups of docs/ROLLUPS.md, for rollup. UNTIL_NEXT, which the original does not have, is the
 * seconds from an output time to the first reading after it, whatever the window holds, and NaN
 * where there is none. DEFAULT and STALE_SAMPLES see staleness marks: DEFAULT answers a window's last
 * value, with the bits of the mark where it is one, STALE_SAMPLES how many marks the window holds. For
 * all others the marks and their times are taken out of the series first. */
enum harzoulin_rollup {
    HARZOULIN_ROLLUP_AVG = 0,
    HARZOULIN_ROLLUP_MIN = 1,
    HARZOULIN_ROLLUP_MAX = 2,
    HARZOULIN_ROLLUP_MAD = 3,
    HARZOULIN_ROLLUP_MEDIAN = 4,
    HARZOULIN_ROLLUP_TMIN = 5,
    HARZOULIN_ROLLUP_TMAX = 6,
    HARZOULIN_ROLLUP_TFIRST = 7,
    HARZOULIN_ROLLUP_TLAST = 8,
    HARZOULIN_ROLLUP_TLAST_CHANGE = 9,
    HARZOULIN_ROLLUP_SUM = 10,
    HARZOULIN_ROLLUP_SUM2 = 11,
    HARZOULIN_ROLLUP_RATE_OVER_SUM = 12,
    HARZOULIN_ROLLUP_RANGE = 13,
    HARZOULIN_ROLLUP_ABSENT = 14,
    HARZOULIN_ROLLUP_PRESENT = 15,
    HARZOULIN_ROLLUP_COUNT = 16,
    HARZOULIN_ROLLUP_STDDEV = 17,
    HARZOULIN_ROLLUP_STDVAR = 18,
    HARZOULIN_ROLLUP_INCREASE_PURE = 19,
    HARZOULIN_ROLLUP_LIFETIME = 20,
    HARZOULIN_ROLLUP_LAG = 21,
    HARZOULIN_ROLLUP_SCRAPE_INTERVAL = 22,
    HARZOULIN_ROLLUP_CHANGES = 23,
    HARZOULIN_ROLLUP_CHANGES_PROMETHEUS = 24,
    HARZOULIN_ROLLUP_INCREASES = 25,
    HARZOULIN_ROLLUP_RESETS = 26,
    HARZOULIN_ROLLUP_MODE_OVER_TIME = 27,
    HARZOULIN_ROLLUP_ASCENT_OVER_TIME = 28,
    HARZOULIN_ROLLUP_DESCENT_OVER_TIME = 29,
    HARZOULIN_ROLLUP_ZSCORE_OVER_TIME = 30,
    HARZOULIN_ROLLUP_FIRST = 31,
    HARZOULIN_ROLLUP_DEFAULT = 32,
    HARZOULIN_ROLLUP_DISTINCT = 33,
    HARZOULIN_ROLLUP_DERIV_SLOW = 34,
    HARZOULIN_ROLLUP_DERIV_FAST = 35,
    HARZOULIN_ROLLUP_IDERIV = 36,
    HARZOULIN_ROLLUP_DELTA = 37,
    HARZOULIN_ROLLUP_DELTA_PROMETHEUS = 38,
    HARZOULIN_ROLLUP_IDELTA = 39,
    HARZOULIN_ROLLUP_OPEN = 40,
    HARZOULIN_ROLLUP_CLOSE = 41,
    HARZOULIN_ROLLUP_HIGH = 42,
    HARZOULIN_ROLLUP_LOW = 43,
    HARZOULIN_ROLLUP_INTEGRATE = 44,
    HARZOULIN_ROLLUP_QUANTILE = 45,
    HARZOULIN_ROLLUP_PREDICT_LINEAR = 46,
    HARZOULIN_ROLLUP_HOLT_WINTERS = 47,
    HARZOULIN_ROLLUP_UNTIL_NEXT = 48,
    HARZOULIN_ROLLUP_STALE_SAMPLES = 49
};

/* What a function returns: the lowest number that applies to it, but 28 before all others, and of
 * harzoulin_merge those of the first series before those of the second, and both before those of
 * the result. Ends of ranges are inside. */
enum harzoulin_refusal {
    HARZOULIN_ACCEPTED = 0,
    /* timestamps and values differ in length */
    HARZOULIN_REFUSED_LENGTHS = 1,
    /* over 16,777,216 readings */
    HARZOULIN_REFUSED_READINGS = 2,
    /* a time outside -2^50..2^50 */
    HARZOULIN_REFUSED_TIME = 3,
    /* a time below the one before; in a series of harzoulin_merge, a time not above it */
    HARZOULIN_REFUSED_ORDER = 4,
    /* a value NaN or infinite; in the two runs, HARZOULIN_STALE aside */
    HARZOULIN_REFUSED_VALUE = 5,
    /* step outside 1..2^50 */
    HARZOULIN_REFUSED_STEP = 6,
    /* start or end outside -2^50..2^50, or start > end */
    HARZOULIN_REFUSED_SPAN = 7,
    /* window outside 0..2^50; in a settled run window or reach outside 1..2^52 */
    HARZOULIN_REFUSED_WINDOW = 8,
    /* lookback_delta, min_staleness_interval or max_points_per_series outside 0..2^50, or
     * samples_scanned_per_call over 65,535 */
    HARZOULIN_REFUSED_LIMITS = 9,
    /* max_points_per_series above 0 and below (end - start) / (step + 1), rounded down */
    HARZOULIN_REFUSED_POINTS = 10,
    /* over 16,777,216 output times */
    HARZOULIN_REFUSED_GRID = 11,
    /* dst_values shorter than the grid */
    HARZOULIN_REFUSED_OUTPUT = 12,
    /* prepared, or in the two runs remaining, shorter than the series */
    HARZOULIN_REFUSED_PREPARED = 13,
    /* work shorter than twice the series */
    HARZOULIN_REFUSED_WORK = 14,
    /* limit of harzoulin_crossings NaN or infinite */
    HARZOULIN_REFUSED_CROSSING_LIMIT = 15,
    /* indexes shorter than the number of crossings */
    HARZOULIN_REFUSED_INDEXES = 16,
    /* a time has values of different bits in the two series of harzoulin_merge */
    HARZOULIN_REFUSED_CONFLICT = 17,
    /* a result slice of harzoulin_merge shorter than the result */
    HARZOULIN_REFUSED_MERGED = 18,
    /* default or stale_samples with a preparing step other than none */
    HARZOULIN_REFUSED_STEP_OF_MARKS = 19,
    /* pre or rollup names none */
    HARZOULIN_REFUSED_CHOICE = 28
};

/* Writes the prepared values to the first entries of prepared, and nothing past them.
 * pre is one of enum harzoulin_step. Refusals: 1 to 5, 13, 28. */
uint64_t harzoulin_prepare(const int64_t *timestamps, size_t timestamps_len, const uint64_t *values,
                           size_t values_len, uint32_t pre, uint64_t *prepared, size_t prepared_len,
                           uint64_t *index);

/* Settles a window, a reach and the number of output times, which are set on acceptance only.
 * A window of 0 stands for the step; a lookback delta, a staleness interval or a point limit of 0
 * for none. The output times are start, start + step, and so on, not past end.
 * Refusals: 2 to 4, 6 to 11. */
uint64_t harzoulin_settle(const int64_t *timestamps, size_t timestamps_len, int64_t start,
                          int64_t end, int64_t step, int64_t window, bool may_adjust_window,
                          bool is_default_rollup, int64_t lookback_delta,
                          int64_t min_staleness_interval, int64_t max_points_per_series,
                          uint64_t samples_scanned_per_call, int64_t *settled_window,
                          int64_t *reach, uint64_t *points, uint64_t *index);

/* Writes one value per output time to the first entries of dst_values, and nothing past them.
 * A value may be HARZOULIN_STALE. The n remaining readings are those that are no marks, and for the
 * rollups default and stale_samples all: the call answers as for a series of them alone.
 * prepared, remaining and work are room that the call writes: afterwards the first n entries of
 * remaining are the remaining times, the first n of prepared their prepared values and the first
 * 2 * n of work +0.0; what lies past them is untouched, but each is at least as long as the series
 * that is handed in, work twice as long. *count is set on acceptance only: n, and for each output time
 * samples_scanned_per_call, or where that is 0 the number of readings in its window.
 * pre is one of enum harzoulin_step, rollup one of enum harzoulin_rollup. first is phi for
 * quantile, the seconds for predict_linear and the smoothing factor for holt_winters, second the
 * trend factor for holt_winters; no other rollup reads them, and no value of them is refused.
 * Refusals: 1 to 14, 19, 28. */
uint64_t harzoulin_run(const int64_t *timestamps, size_t timestamps_len, const uint64_t *values,
                       size_t values_len, uint32_t pre, uint32_t rollup, double first,
                       double second, int64_t start, int64_t end, int64_t step, int64_t window,
                       bool may_adjust_window, bool is_default_rollup, int64_t lookback_delta,
                       int64_t min_staleness_interval, int64_t max_points_per_series,
                       uint64_t samples_scanned_per_call, uint64_t *dst_values,
                       size_t dst_values_len, uint64_t *prepared, size_t prepared_len,
                       int64_t *remaining, size_t remaining_len, double *work, size_t work_len,
                       uint64_t *count, uint64_t *index);

/* The same with the window and the reach that harzoulin_settle gave, handed the remaining times. Runs
 * over consecutive parts of a grid write the values of the run over all of it; their counts add up to
 * its count and, for each part but one, n. Refusals: 1 to 9, 11 to 14, 19, 28. */
uint64_t harzoulin_settled_run(const int64_t *timestamps, size_t timestamps_len,
                               const uint64_t *values, size_t values_len, uint32_t pre,
                               uint32_t rollup, double first, double second, int64_t start,
                               int64_t end, int64_t step, int64_t window, int64_t reach,
                               uint64_t samples_scanned_per_call, uint64_t *dst_values,
                               size_t dst_values_len, uint64_t *prepared, size_t prepared_len,
                               int64_t *remaining, size_t remaining_len, double *work,
                               size_t work_len, uint64_t *count, uint64_t *index);

/* Writes the index of each reading that lies on the other side of limit from the one before it to
 * the first entries of indexes, in order, and nothing past them. A value below limit is on the one
 * side, a value of limit or above on the other. *count is set on acceptance only: the number of
 * crossings, which is below values_len, or 0 without readings. Refusals: 1 to 5, 15, 16. */
uint64_t harzoulin_crossings(const int64_t *timestamps, size_t timestamps_len,
                             const uint64_t *values, size_t values_len, double limit,
                             uint64_t *indexes, size_t indexes_len, uint64_t *count,
                             uint64_t *index);

/* Finds the reading nearest to time; of those that are as near, the one of the lowest index. On
 * acceptance *found is 1 and *nearest its index, counted from 0; without readings both are 0. A
 * refusal leaves both as they were. Refusals: 2 to 4; 3 also for time outside -2^50..2^50, with
 * index 0, after the readings' own 3. */
uint64_t harzoulin_nearest(const int64_t *timestamps, size_t timestamps_len, int64_t time,
                           uint64_t *found, uint64_t *nearest, uint64_t *index);

/* Merges two series, such as two logs of one probe: the result has each reading that is in at least
 * one of them, and one that is in both once. Its times, which rise, are written to the first
 * entries of timestamps, its values to those of values, and nothing past them. *length is set on
 * acceptance only: the number of its readings, at most the sum of both lengths.
 * Refusals, in this order: 1 to 5 of the first series, 1 to 5 of the second, 2 if the result has
 * over 16,777,216 readings, 17, also for -0.0 and +0.0 at one time, 18. One of 1 to 5 is the first
 * series' if that, merged with an empty one, is refused so, too. */
uint64_t harzoulin_merge(const int64_t *first_timestamps, size_t first_timestamps_len,
                         const uint64_t *first_values, size_t first_values_len,
                         const int64_t *second_timestamps, size_t second_timestamps_len,
                         const uint64_t *second_values, size_t second_values_len,
                         int64_t *timestamps, size_t timestamps_len, uint64_t *values,
                         size_t values_len, uint64_t *length, uint64_t *index);

#ifdef __cplusplus
}
#endif

#endif
