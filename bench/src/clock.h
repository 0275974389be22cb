// Processor time.
#pragma once
#include <cstddef>
#include <ctime>

// Processor time used so far, in seconds; other programs do not count.
inline double processor_seconds() {
    timespec time;
    clock_gettime(CLOCK_PROCESS_CPUTIME_ID, &time);
    return static_cast<double>(time.tv_sec) + 1e-9 * static_cast<double>(time.tv_nsec);
}

// Mean time of a call in nanoseconds, where `all` makes `calls` of them; they go on for at least so many seconds.
template <class All>
double mean_nanoseconds(size_t calls, double least_seconds, All all) {
    const double start = processor_seconds();
    size_t count = 0;
    double seconds = 0;
    do {
        all();
        count += calls;
        seconds = processor_seconds() - start;
    } while (seconds < least_seconds);
    return 1e9 * seconds / static_cast<double>(count);
}
