// Distance fields: for each place of the map the number of steps to a cell. They guide the search. As the stops of a
// site come again and again, whoever goes there, all agents share those that were asked for last; and each is filled
// only as far as somebody had to look.
#pragma once

#include <memory>

#include "site.hpp"

using Table = std::unique_ptr<uint32_t[]>;

// Breadth first by one layer over a table that holds UNSEEN where it may go: from the places between head and end to
// those beside them, which are listed at the tail. Answers the new tail.
inline uint32_t* spread(uint32_t* __restrict table, const uint32_t* head, const uint32_t* end, uint32_t* tail,
                        ptrdiff_t stride, uint32_t distance) {
    for (; head != end; ++head) {
        const uint32_t cell = *head;
        uint32_t* const here = table + cell;
        if (here[1] == UNSEEN) here[1] = distance, *tail++ = cell + 1;
        if (here[-1] == UNSEEN) here[-1] = distance, *tail++ = cell - 1;
        if (here[stride] == UNSEEN) here[stride] = distance, *tail++ = cell + uint32_t(stride);
        if (here[-stride] == UNSEEN) here[-stride] = distance, *tail++ = cell - uint32_t(stride);
    }
    return tail;
}

// All of it. The queue starts with the sources, and has room for all places, so that it never wraps.
inline void fill(uint32_t* table, uint32_t* queue, size_t sources, ptrdiff_t stride) {
    uint32_t* head = queue;
    uint32_t* tail = queue + sources;
    for (uint32_t distance = 1; head != tail; ++distance) {
        uint32_t* const end = tail;
        tail = spread(table, head, end, end, stride, distance);
        head = end;
    }
}

// A table that is filled from several places at once, by whole layers, as far as asked.
struct Filling {
    uint32_t* table;
    uint32_t* head;
    uint32_t* tail;
    ptrdiff_t stride;
    uint32_t distance = 0;

    void fill_layer() {
        uint32_t* const end = tail;
        tail = spread(table, head, end, end, stride, ++distance);
        head = end;
    }

    void until(uint32_t place) {
        while (head != tail && table[place] == UNSEEN) fill_layer();
    }

    void rest() {
        while (head != tail) fill_layer();
    }
};

// How the way to a stop is estimated: by its field, in which all that is farther than a bound counts as the bound, also
// a place that is blocked or that no walk leads from. So the estimates are the same however far others had it filled.
struct Bounded {
    const uint32_t* table;
    uint32_t bound;
};

class Fields {
public:
    static constexpr uint32_t FARTHER = 16;          // steps beyond the distance from which a leg starts

private:
    static constexpr uint32_t SLOTS = 4;             // of each agent's planner, as the product has by default
    static constexpr size_t ROOM = 64 << 20;         // bytes for all fields, but for those of one task in any case

    struct Entry {
        uint32_t goal = NONE;
        uint64_t used = 0;
        Table table, queue;
        uint32_t head = 0, tail = 0, distance = 0;    // the queue's part that is of the last distance
    };
    const Grid& grid_;
    std::vector<uint32_t>& queue_;
    size_t room_;
    std::vector<Entry> entries_;
    std::vector<uint32_t> entry_of_;    // by goal
    uint64_t uses_ = 0;
    Table nearest_;

public:
    Fields(const Grid& grid, std::vector<uint32_t>& queue, size_t agents)
        : grid_(grid), queue_(queue),
          room_(std::max<size_t>(std::min(SLOTS * agents, ROOM / (8 * grid.size())), MOST_LEGS)),
          entry_of_(grid.size(), NONE) {
        entries_.reserve(room_);
    }

    // Whether the field of a goal is there, and filled as far as this.
    bool is_filled(uint32_t goal, uint32_t level) const {
        if (entry_of_[goal] == NONE) return false;
        const Entry& entry = entries_[entry_of_[goal]];
        return entry.head == entry.tail || entry.distance >= level;
    }

    // The field of a goal for a leg from this cell. The last MOST_LEGS answers stay as they are.
    Bounded get(uint32_t goal, uint32_t from) {
        Entry& entry = find(goal);
        entry.used = ++uses_;
        const uint32_t* const table = entry.table.get();
        while (table[from] == UNSEEN && entry.head != entry.tail) fill_layer(entry);
        if (table[from] == UNSEEN) return {table, UNSEEN};
        const uint32_t level = table[from] + FARTHER;
        while (entry.distance < level && entry.head != entry.tail) fill_layer(entry);
        return {table, level + 1};
    }

    // The steps to the nearest point that serves, of which none is known yet. It is made anew each time: for another agent
    // other points serve. It is good until the shared queue is used for another.
    template <typename Serves>
    Filling to_nearest(const std::vector<Point>& points, Serves serves) {
        if (!nearest_) nearest_.reset(new uint32_t[grid_.size()]);
        size_t count = 0;
        for (const Point& point : points)
            if (serves(point.cell)) queue_[count++] = point.cell;
        memcpy(nearest_.get(), grid_.places.data(), grid_.size() * sizeof(uint32_t));
        for (size_t source = 0; source < count; ++source) nearest_[queue_[source]] = 0;
        return {nearest_.get(), queue_.data(), queue_.data() + count, grid_.stride};
    }

private:
    Entry& find(uint32_t goal) {
        uint32_t number = entry_of_[goal];
        if (number != NONE) return entries_[number];
        if (entries_.size() < room_) {
            number = uint32_t(entries_.size());
            entries_.emplace_back();
            entries_.back().table.reset(new uint32_t[grid_.size()]);
            entries_.back().queue.reset(new uint32_t[grid_.size()]);
        } else {
            number = 0;
            for (uint32_t other = 1; other < entries_.size(); ++other)
                if (entries_[other].used < entries_[number].used) number = other;
            entry_of_[entries_[number].goal] = NONE;
        }
        entry_of_[goal] = number;
        begin(entries_[number], goal);
        return entries_[number];
    }

    void begin(Entry& entry, uint32_t goal) {
        memcpy(entry.table.get(), grid_.places.data(), grid_.size() * sizeof(uint32_t));
        entry.goal = goal;
        entry.table[goal] = 0;
        entry.queue[0] = goal;
        entry.head = entry.distance = 0;
        entry.tail = 1;
    }

    void fill_layer(Entry& entry) {
        uint32_t* const queue = entry.queue.get();
        uint32_t* const end = queue + entry.tail;
        uint32_t* const tail =
            spread(entry.table.get(), queue + entry.head, end, end, grid_.stride, ++entry.distance);
        entry.head = entry.tail;
        entry.tail = uint32_t(tail - queue);
    }
};
