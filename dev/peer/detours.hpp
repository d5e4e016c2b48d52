// Detours round those that stay or come to rest in time: the map without their places, and the fields over it of those stops to
// which the way is barred by places that are closed, at which somebody is at each time from which on the agent can be there: it
// takes a step for each column and row from where it is. They are made for one search.
#pragma once

#include "errand.hpp"

class Detours {
    const Grid& grid_;
    std::vector<uint32_t> places_;
    Table tables_[MOST_LEGS], queue_;
    uint32_t passable_ = 0;

public:
    explicit Detours(const Grid& grid) : grid_(grid) {}

    uint32_t passable() const { return passable_; }

    // The legs, as bits, on which the way down the stop's field, round those places, comes to where each next one is such.
    uint32_t barred(const Reservations& others, uint32_t start, const uint32_t* stops, uint32_t count,
                    const Bounded* fields) const {
        uint32_t legs = 0;
        for (uint32_t leg = 0; leg < count; ++leg)
            if (is_barred(others, start, leg == 0 ? start : stops[leg - 1], fields[leg].table)) legs |= 1u << leg;
        return legs;
    }

    // Makes the map, and the fields of these legs, each filled as those that are shared.
    void make(const Reservations& others, uint32_t start, const uint32_t* stops, uint32_t count, uint32_t legs,
              Bounded* fields) {
        bar(others, start);
        if (!queue_) queue_.reset(new uint32_t[grid_.size()]);
        for (uint32_t leg = 0; leg < count; ++leg) {
            if (!(legs >> leg & 1)) continue;
            if (!tables_[leg]) tables_[leg].reset(new uint32_t[grid_.size()]);
            fields[leg] = fill_field(tables_[leg].get(), stops[leg], leg == 0 ? start : stops[leg - 1]);
        }
    }

private:
    bool is_closed(const Reservations& others, uint32_t start, uint32_t cell) const {
        return others.is_taken(cell, grid_.apart(start, cell));
    }

    bool is_barred(const Reservations& others, uint32_t start, uint32_t cell, const uint32_t* table) const {
        for (uint32_t left = table[cell]; left > 0; --left) {
            uint32_t nexts[MOVES];
            list_moves(cell, grid_.stride, nexts);
            uint32_t move = 1;
            while (move < MOVES && (table[nexts[move]] >= left || is_closed(others, start, nexts[move]))) ++move;
            if (move == MOVES) return true;
            cell = nexts[move];
        }
        return false;
    }

    void bar(const Reservations& others, uint32_t start) {
        places_ = grid_.places;
        passable_ = grid_.passable;
        others.for_each_end([&](uint32_t cell) {
            if (!is_closed(others, start, cell)) return;
            places_[cell] = BLOCKED;
            --passable_;
        });
    }

    Bounded fill_field(uint32_t* table, uint32_t goal, uint32_t from) {
        memcpy(table, places_.data(), grid_.size() * sizeof(uint32_t));
        table[goal] = 0;
        uint32_t* head = queue_.get();
        uint32_t* tail = head;
        *tail++ = goal;
        for (uint32_t distance = 1; head != tail; ++distance) {
            if (table[from] != UNSEEN && distance > table[from] + Fields::FARTHER) break;
            uint32_t* const end = tail;
            tail = spread(table, head, end, end, grid_.stride, distance);
            head = end;
        }
        return {table, table[from] == UNSEEN ? UNSEEN : table[from] + Fields::FARTHER + 1};
    }
};
