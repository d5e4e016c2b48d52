// The search over intervals. A node is an arrival: where an agent comes, at which time, and until when it may wait there;
// so it stands for all later times of an interval in which nobody else comes. Best first, by the order of the estimate,
// then of the steps left, then of time.
#pragma once

#include <algorithm>

#include "errand.hpp"

class Intervals {
    struct Node {
        uint32_t cell, leg, time, until, parent, interval;
    };
    struct Entry {
        uint64_t rank, turn;
        bool operator<(const Entry& other) const {    // the last one of a heap comes first
            return rank != other.rank ? rank > other.rank : turn > other.turn;
        }
        uint32_t node() const { return ~uint32_t(turn); }
    };
    // The times in which nobody else is at a cell: the last node there, and from when on it is expanded.
    struct Interval {
        uint32_t cell, leg, until, newest, since;
    };

    const Grid& grid_;
    std::vector<Node> nodes_;
    // A heap, and apart from it one that came before all others when it was added: mostly it is the next that is taken.
    std::vector<Entry> waiting_;
    Entry first_{};
    bool has_first_ = false;
    std::vector<Interval> intervals_;
    std::vector<uint64_t> slots_;    // the upper half of a hash and an index plus 1; 0 is free
    size_t size_ = 0;
    uint32_t base_ = 0;
    uint64_t expanded_ = 0, most_ = 0;    // in all searches, and in one at most

    static uint64_t hash_of(uint32_t cell, uint32_t leg, uint32_t until) {
        return ((uint64_t(until) << 32) ^ (uint64_t(leg) << 28) ^ cell) * 0x9E3779B97F4A7C15ull;
    }

    void clear_slots(size_t size) {
        size_ = size;
        if (slots_.size() < size) slots_.resize(size);
        std::fill(slots_.begin(), slots_.begin() + ptrdiff_t(size), 0);
    }

    // The number of an interval; it is noted if it is new.
    uint32_t interval_of(uint32_t cell, uint32_t leg, uint32_t until) {
        const uint64_t hash = hash_of(cell, leg, until);
        const size_t mask = size_ - 1;
        size_t slot = size_t(hash >> 32) & mask;
        for (;; slot = (slot + 1) & mask) {
            const uint64_t entry = slots_[slot];
            if (entry == 0) break;
            if ((entry ^ hash) >> 32 != 0) continue;
            const Interval& other = intervals_[uint32_t(entry) - 1];
            if (other.cell == cell && other.leg == leg && other.until == until) return uint32_t(entry) - 1;
        }
        intervals_.push_back({cell, leg, until, NONE, NONE});
        slots_[slot] = (hash & 0xFFFFFFFF00000000ull) | intervals_.size();
        if (UNLIKELY(intervals_.size() > size_ / 2)) grow();
        return uint32_t(intervals_.size()) - 1;
    }

    void grow() {
        clear_slots(size_ * 4);
        const size_t mask = size_ - 1;
        for (size_t number = 0; number < intervals_.size(); ++number) {
            const Interval& of = intervals_[number];
            const uint64_t hash = hash_of(of.cell, of.leg, of.until);
            size_t slot = size_t(hash >> 32) & mask;
            while (slots_[slot]) slot = (slot + 1) & mask;
            slots_[slot] = (hash & 0xFFFFFFFF00000000ull) | (number + 1);
        }
    }

public:
    explicit Intervals(const Grid& grid) : grid_(grid) {}

    uint64_t expanded() const { return expanded_; }
    uint64_t most() const { return most_; }

    // All that may lead to an end by the base is alike.
    bool find(const Errand& errand, uint32_t start, uint32_t first, uint32_t base, std::vector<uint32_t>& path) {
        const uint64_t before = expanded_;
        const bool found = search(errand, start, first, base, path);
        most_ = std::max(most_, expanded_ - before);
        return found;
    }

private:
    bool search(const Errand& errand, uint32_t start, uint32_t first, uint32_t base, std::vector<uint32_t>& path) {
        base_ = base;
        nodes_.clear();
        waiting_.clear();
        has_first_ = false;
        intervals_.clear();
        clear_slots(512);
        meet(errand, start, first, 0, NONE);
        while (has_first_ || !waiting_.empty()) {
            const uint32_t number = take();
            const Node node = nodes_[number];
            if (errand.is_end(node.leg, node.cell, node.time)) {
                trace(number, path);
                return true;
            }
            uint32_t& since = intervals_[node.interval].since;
            if (since <= node.time) continue;
            const uint32_t last = since == NONE ? node.until : since - 1;
            since = node.time;
            expand(errand, number, last);
            ++expanded_;
        }
        return false;
    }

    void push(const Entry& entry) {
        waiting_.push_back(entry);
        std::push_heap(waiting_.begin(), waiting_.end());
    }

    void wait(const Entry& entry) {
        if (has_first_ ? entry < first_ : !waiting_.empty() && entry < waiting_.front()) return push(entry);
        if (has_first_) push(first_);
        first_ = entry;
        has_first_ = true;
    }

    uint32_t take() {
        if (has_first_) {
            has_first_ = false;
            return first_.node();
        }
        std::pop_heap(waiting_.begin(), waiting_.end());
        const uint32_t number = waiting_.back().node();
        waiting_.pop_back();
        return number;
    }

    uint32_t meet(const Errand& errand, uint32_t cell, uint32_t leg, uint32_t time, uint32_t parent) {
        const uint32_t until = std::min(errand.limit(), errand.reservations.free_until(cell, time));
        const uint32_t number = uint32_t(nodes_.size()), interval = interval_of(cell, leg, until);
        uint32_t& newest = intervals_[interval].newest;
        if (newest != NONE && nodes_[newest].time <= time) return until;
        newest = number;
        const uint32_t left = errand.estimate(leg, cell);
        nodes_.push_back({cell, leg, time, until, parent, interval});
        wait({uint64_t(std::max(base_, time + left)) << 32 | left, uint64_t(time) << 32 | uint32_t(~number)});
        return until;
    }

    // Meets what the node leads to by leaving no later than at a time: of each interval of a next cell the first arrival.
    void expand(const Errand& errand, uint32_t number, uint32_t last) {
        const Node from = nodes_[number];
        const Errand::Leg by = errand.leg(from.leg);
        const uint32_t limit = errand.limit();
        uint32_t back = NONE, back_leg = 0, back_until = 0;
        if (from.parent != NONE) {
            const Node& parent = nodes_[from.parent];
            back = parent.cell, back_leg = parent.leg, back_until = parent.until;
        }
        if (UNLIKELY(by.stop == from.cell)) stay(errand, number);
        uint32_t nexts[MOVES];
        list_moves(from.cell, grid_.stride, nexts);
        for (uint32_t move = 1; move < MOVES; ++move) {
            const uint32_t to = nexts[move], steps = by.table[to];
            if (steps > UNSEEN) continue;    // blocked, or the edge
            uint32_t leg = from.leg, left = std::min(steps, by.bound) + by.onward;
            if (to == by.stop) {
                leg = errand.arrive(leg, to);
                left = errand.estimate(leg, to);
            }
            if (left >= limit) continue;
            const uint32_t soon = std::min(last, limit - left - 1);
            uint32_t next = from.time;
            if (to == back && leg == back_leg) next = std::max(next, back_until + 1);
            while (next <= soon) {
                const uint32_t time = departure(errand.reservations, from.cell, to, next, soon);
                if (time == NONE) break;
                next = meet(errand, to, leg, time + 1, number) + 1;    // somebody comes there just after
            }
        }
    }

    // An agent that came to its next stop has done with it once it was there for the whole stay. It may leave before, too.
    void stay(const Errand& errand, uint32_t number) {
        const Node from = nodes_[number];
        const uint32_t time = from.time + errand.stay_at(from.leg, from.cell), leg = errand.arrive(from.leg + 1, from.cell);
        if (time <= from.until && time + errand.estimate(leg, from.cell) <= errand.limit()) meet(errand, from.cell, leg, time, number);
    }

    static uint32_t departure(const Reservations& others, uint32_t from, uint32_t to, uint32_t time, uint32_t last) {
        while (time <= last) {
            if (others.allows(from, to, time)) return time;
            const uint32_t free = others.next_free(to, time + 2);
            if (free == NONE) return NONE;
            time = free - 1;
        }
        return NONE;
    }

    void trace(uint32_t number, std::vector<uint32_t>& path) {
        uint32_t time = nodes_[number].time;
        path.resize(time + 1);
        for (;; --time) {
            path[time] = nodes_[number].cell;
            if (time == 0) return;
            if (nodes_[number].time == time) number = nodes_[number].parent;
        }
    }
};
