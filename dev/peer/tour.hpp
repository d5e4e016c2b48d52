// Where an agent goes for a task: through its stops, at each of which it stays for so many ticks, and on to where it ends.
#pragma once

#include <algorithm>

#include "common.hpp"

struct Tour {
    uint32_t stops[MOST_LEGS], stays[MOST_LEGS];
    uint32_t count = 0;

    void add(uint32_t stop, uint32_t stay) {
        stops[count] = stop;
        stays[count++] = stay;
    }

    bool has_stays() const {
        return std::any_of(stays, stays + count, [](uint32_t stay) { return stay != 0; });
    }
};
