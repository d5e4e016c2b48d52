// What every file of the peer uses: hints to the compiler, the numbers that stand for nothing, and the end on a fault.
#pragma once

#include <cstddef>
#include <cstdint>
#include <cstdio>
#include <cstdlib>

// A function would do, but the compiler may lose the hint when it puts the function in place.
#define LIKELY(condition) __builtin_expect(!!(condition), 1)
#define UNLIKELY(condition) __builtin_expect(!!(condition), 0)

constexpr uint32_t NONE = 0xFFFFFFFF;
constexpr uint16_t NOBODY = 0xFFFF;

constexpr uint32_t MOST_STOPS = 8;
constexpr uint32_t MOST_LEGS = MOST_STOPS + 1;    // through the stops, and home
constexpr uint32_t MOST_STAY = 9999;              // ticks at a stop
constexpr uint32_t MOST_AGENTS = 256;
constexpr uint32_t MOST_POINTS = 4096;
constexpr uint32_t MOST_TASKS = 1000000;
constexpr uint32_t LAST_CLOCK = 1000000000;

[[noreturn]] inline void die(const char* why) {
    fprintf(stderr, "%s\n", why);
    exit(1);
}
