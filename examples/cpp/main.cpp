// A day's means of a probe, by the rollup core: over the whole grid, and again in two parts on two
// threads, which give the same; when it went over a limit; the day from two logs of it; and that it
// was unplugged.
// Build and run: make -C examples/cpp run
#include <cstdio>
#include <cstring>
#include <thread>
#include <vector>

#include "harzoulin.h"

namespace {

constexpr std::int64_t minute = 60'000, hour = 60 * minute;

// Readings, each minute of a day.
struct Series {
    std::vector<std::int64_t> times;
    std::vector<double> values;
};

// The slices that a run writes. A vector without entries may have no address, so each has one more.
struct Lent {
    Lent(std::size_t readings, std::size_t points)
        : readings(readings), points(points), output(points + 1), prepared(readings + 1),
          remaining(readings + 1), work(2 * readings + 1) {}
    std::size_t readings, points;
    std::vector<double> output, prepared;
    std::vector<std::int64_t> remaining;
    std::vector<double> work;
    std::uint64_t count = 0, index = 0;
};

// Where the core asks for patterns, an array of doubles is handed as it is.
const std::uint64_t *patterns(const double *values) {
    return reinterpret_cast<const std::uint64_t *>(values);
}

std::uint64_t *patterns(double *values) { return reinterpret_cast<std::uint64_t *>(values); }

Series day() {
    Series series;
    for (std::int64_t reading = 0; reading < 24 * 60; reading++) {
        series.times.push_back(reading * minute);
        series.values.push_back(16.5 + static_cast<double>(reading * 7919 % 97) / 32);
    }
    return series;
}

// Hourly means from one output time to another.
std::uint64_t means(const Series &series, std::int64_t start, std::int64_t end,
                    std::int64_t window, std::int64_t reach, Lent &lent) {
    return harzoulin_settled_run(
        series.times.data(), series.times.size(), patterns(series.values.data()),
        series.values.size(), HARZOULIN_STEP_NONE, HARZOULIN_ROLLUP_AVG, 0.0, 0.0, start, end, hour,
        window, reach, 0, patterns(lent.output.data()), lent.points, patterns(lent.prepared.data()),
        lent.readings, lent.remaining.data(), lent.readings, lent.work.data(), 2 * lent.readings,
        &lent.count, &lent.index);
}

// Whether the first entries of a slice are those of another, from one of them on, to the bit.
bool same(const std::vector<double> &whole, std::size_t from, const Lent &part) {
    return std::memcmp(&whole[from], part.output.data(), part.points * sizeof(double)) == 0;
}

// Whether a run without a reading is accepted, and whether none is nearest to a time.
bool accepts_no_readings() {
    Lent lent(0, 1);
    std::int64_t no_time = 0;
    double no_value = 0.0;
    std::uint64_t answer = harzoulin_run(
        &no_time, 0, patterns(&no_value), 0, HARZOULIN_STEP_DELTA, HARZOULIN_ROLLUP_ABSENT, 0.0,
        0.0, 0, 0, hour, 0, false, false, 0, 0, 0, 0, patterns(lent.output.data()), 1,
        patterns(lent.prepared.data()), 0, lent.remaining.data(), 0, lent.work.data(), 0,
        &lent.count, &lent.index);
    std::uint64_t found = 1, nearest = 1;
    answer += harzoulin_nearest(&no_time, 0, hour, &found, &nearest, &lent.index);
    return answer == HARZOULIN_ACCEPTED && lent.output[0] == 1.0 && lent.count == 0 && found == 0;
}

// Whether it is found when the probe went over a limit and back, if there is room for the indexes.
bool finds_crossings(const Series &series) {
    std::vector<std::uint64_t> indexes(series.times.size());
    std::uint64_t count = 0, index = 0;
    auto ask = [&](std::size_t room) {
        return harzoulin_crossings(series.times.data(), series.times.size(),
                                   patterns(series.values.data()), series.values.size(), 18.0,
                                   indexes.data(), room, &count, &index);
    };
    if (ask(0) != HARZOULIN_REFUSED_INDEXES || ask(indexes.size()) != HARZOULIN_ACCEPTED) {
        return false;
    }
    std::printf("%u crossings of 18 degrees, the first at minute %u\n",
                static_cast<unsigned>(count), static_cast<unsigned>(indexes[0]));
    return count > 0 && series.values[indexes[0]] >= 18.0;
}

// The readings from one place to another.
Series part(const Series &series, std::ptrdiff_t from, std::ptrdiff_t to) {
    return {{series.times.begin() + from, series.times.begin() + to},
            {series.values.begin() + from, series.values.begin() + to}};
}

// Whether two logs that overlap give the whole day, and are refused where they contradict.
bool merges_logs(const Series &series) {
    Series panel = part(series, 0, 1000), server = part(series, 700, 24 * 60);
    const std::size_t readings = series.times.size();
    Series day{std::vector<std::int64_t>(readings), std::vector<double>(readings)};
    std::uint64_t length = 0, index = 0;
    auto ask = [&] {
        return harzoulin_merge(
            panel.times.data(), panel.times.size(), patterns(panel.values.data()),
            panel.values.size(), server.times.data(), server.times.size(),
            patterns(server.values.data()), server.values.size(), day.times.data(), readings,
            patterns(day.values.data()), readings, &length, &index);
    };
    if (ask() != HARZOULIN_ACCEPTED) {
        return false;
    }
    std::printf("%zu and %zu readings, merged: %u\n", panel.times.size(), server.times.size(),
                static_cast<unsigned>(length));
    server.values[0] += 1;
    return length == readings && day.times == series.times && day.values == series.values &&
           ask() == HARZOULIN_REFUSED_CONFLICT;
}

// Whether it is told that a probe was unplugged at minute 90. A mark is a NaN, which equals nothing:
// values with marks are kept as bits, and so is an answer that may be one.
bool tells_a_mark(const Series &series) {
    const std::size_t readings = 91;
    std::vector<std::uint64_t> values(readings);
    std::memcpy(values.data(), series.values.data(), readings * sizeof(double));
    values[90] = HARZOULIN_STALE;
    Lent lent(readings, 0);
    auto ask = [&](std::uint32_t step, std::uint32_t rollup, std::uint64_t *figure) {
        return harzoulin_run(series.times.data(), readings, values.data(), readings, step, rollup,
                             0.0, 0.0, 2 * hour, 2 * hour, hour, 0, false, false, 0, 0, 0, 0,
                             figure, 1, patterns(lent.prepared.data()), readings,
                             lent.remaining.data(), readings, lent.work.data(), 2 * readings,
                             &lent.count, &lent.index);
    };
    std::uint64_t last = 0;
    double marks = 0.0, mean = 0.0;
    if (ask(HARZOULIN_STEP_NONE, HARZOULIN_ROLLUP_DEFAULT, &last) != HARZOULIN_ACCEPTED ||
        ask(HARZOULIN_STEP_NONE, HARZOULIN_ROLLUP_STALE_SAMPLES, patterns(&marks)) ||
        ask(HARZOULIN_STEP_NONE, HARZOULIN_ROLLUP_AVG, patterns(&mean))) {
        return false;
    }
    std::printf("%.0f mark in the second hour, and %s at its end\n", marks,
                last == HARZOULIN_STALE ? "away" : "there");
    return last == HARZOULIN_STALE && marks == 1.0 && mean > 16.0 &&
           ask(HARZOULIN_STEP_DELTA, HARZOULIN_ROLLUP_DEFAULT, &last) ==
               HARZOULIN_REFUSED_STEP_OF_MARKS;
}

} // namespace

int main() {
    Series series = day();
    const std::size_t readings = series.times.size();
    std::int64_t window = 0, reach = 0;
    std::uint64_t points = 0, index = 0;
    if (harzoulin_settle(series.times.data(), readings, hour, 24 * hour, hour, 0, false, false, 0,
                         0, 0, 0, &window, &reach, &points, &index) != HARZOULIN_ACCEPTED) {
        return 1;
    }
    Lent whole(readings, points), morning(readings, 12), evening(readings, points - 12);
    std::uint64_t refused = means(series, hour, 24 * hour, window, reach, whole);
    std::uint64_t refused_morning = HARZOULIN_REFUSED_CHOICE;
    std::thread other(
        [&] { refused_morning = means(series, hour, 12 * hour, window, reach, morning); });
    std::uint64_t refused_evening = means(series, 13 * hour, 24 * hour, window, reach, evening);
    other.join();
    if (refused + refused_morning + refused_evening != HARZOULIN_ACCEPTED) {
        return 1;
    }
    std::printf("%zu hourly means, the first %.4f, the last %.4f\n", whole.points, whole.output[0],
                whole.output[whole.points - 1]);
    bool crossed = finds_crossings(series), merged = merges_logs(series);
    bool told = tells_a_mark(series);
    bool joined = same(whole.output, 0, morning) && same(whole.output, 12, evening) &&
                  morning.count + evening.count == whole.count + readings;
    series.times[7] = series.times[6] - 1;
    refused = means(series, hour, 12 * hour, window, reach, morning);
    bool ordered = refused == HARZOULIN_REFUSED_ORDER && morning.index == 7;
    std::printf("in two parts: %s\n", joined ? "the same" : "not the same");
    return crossed && merged && told && joined && ordered && accepts_no_readings() ? 0 : 1;
}
