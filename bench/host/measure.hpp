// Measuring by turns: in each turn everyone does the same number of events in a row, so that what else the machine does falls on all of them.
#pragma once
#include <algorithm>
#include <ctime>
#include <functional>
#include <vector>

// Nanoseconds that this thread has spent on a processor.
inline double now()
{
    timespec time;
    clock_gettime(CLOCK_THREAD_CPUTIME_ID, &time);
    return 1e9 * static_cast<double>(time.tv_sec) + static_cast<double>(time.tv_nsec);
}

inline double median(std::vector<double> values)
{
    std::sort(values.begin(), values.end());
    const size_t middle = values.size() / 2;
    return values.size() % 2 != 0 ? values[middle] : (values[middle - 1] + values[middle]) / 2;
}

// What one of them does so many times, and how long each time took, in every turn.
struct Timed {
    std::function<void(size_t)> work;
    size_t count;
    std::vector<double> turns;

    double shortest() const { return *std::min_element(turns.begin(), turns.end()); }
    double middle() const { return median(turns); }
};

// How many times are about two milliseconds: a multiple of what brings all back to where it began.
inline size_t calibrated(const std::function<void(size_t)> &work, size_t cycle)
{
    for (size_t count = cycle;; count *= 2) {
        const double begun = now();
        work(count);
        if (now() - begun > 1e6)
            return 2 * count;
    }
}

inline void take_turns(std::vector<Timed> &all, size_t cycle, size_t turns)
{
    for (Timed &timed : all)
        timed.count = calibrated(timed.work, cycle);
    for (size_t turn = 0; turn < turns; turn++)
        for (size_t place = 0; place < all.size(); place++) {
            Timed &timed = all[(turn + place) % all.size()];
            const double begun = now();
            timed.work(timed.count);
            timed.turns.push_back((now() - begun) / static_cast<double>(timed.count));
        }
}

// How many times longer one takes than the other: the median of the turns' ratios.
inline double ratio(const Timed &one, const Timed &other)
{
    std::vector<double> ratios;
    for (size_t turn = 0; turn < one.turns.size(); turn++)
        ratios.push_back(one.turns[turn] / other.turns[turn]);
    return median(ratios);
}
