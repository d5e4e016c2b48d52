// The history: an entry for each command, with all that a log tells of it. It is kept also where no log is asked for:
// the product keeps the same, and a yardstick that did not would be faster by that alone.
#pragma once

#include <vector>

#include "text.hpp"

enum class Event : uint8_t { SUBMIT, TOKEN, TICK, REPLACE, CLOSE };
enum class Reply : uint8_t { ACCEPTED, TOOK, RESTED, PARKED, CLOCK, CLOSED, E1, E2, E3, E4, E5, E6, E7, E8, E10 };

struct Entry {
    uint32_t caller;
    Event event;
    Reply reply;
    uint32_t argument;      // the agent, or the number of the submission
    uint32_t numbers[3];    // of the reply; a path is the last two: where its cells begin, and how many
};
static_assert(sizeof(Entry) == 24);

struct Submission {
    Name client, stops[MOST_STOPS];
    uint32_t count;
    uint32_t stays[MOST_STOPS];
    bool is_urgent;
};

class History {
    std::vector<Entry> entries_;
    std::vector<uint32_t> cells_;
    std::vector<Submission> submissions_;

public:
    const std::vector<Entry>& entries() const { return entries_; }
    const Submission& submission(uint32_t number) const { return submissions_[number]; }
    uint32_t cell(uint32_t index) const { return cells_[index]; }

    void note(Event event, uint32_t argument, Reply reply, uint32_t first = 0, uint32_t second = 0,
              uint32_t third = 0) {
        entries_.push_back({0, event, reply, argument, {first, second, third}});
    }

    uint32_t keep_path(const std::vector<uint32_t>& path) {
        const uint32_t begin = uint32_t(cells_.size());
        cells_.insert(cells_.end(), path.begin(), path.end());
        return begin;
    }

    uint32_t keep_submission(const Submission& submission) {
        submissions_.push_back(submission);
        return uint32_t(submissions_.size()) - 1;
    }
};
