// What is sought: a path through all stops of a task, or to one of the places where an agent may park; and by what the
// steps that are left of it are estimated. A leg is the way to the next stop.
#pragma once

#include "fields.hpp"
#include "reservations.hpp"
#include "tour.hpp"

// Moves by the order in which all that plans takes them: stay, left, right, up, down.
constexpr uint32_t MOVES = 5;

inline void list_moves(uint32_t cell, uint32_t stride, uint32_t (&nexts)[MOVES]) {
    nexts[0] = cell;
    nexts[1] = cell - 1;
    nexts[2] = cell + 1;
    nexts[3] = cell - stride;
    nexts[4] = cell + stride;
}

class Errand {
public:
    struct Leg {
        const uint32_t* table;
        uint32_t bound;
        uint32_t onward;    // the ticks of the stay where it ends, and those that the legs behind it need at least
        uint32_t stop;      // where it ends; NONE for the last, which is_end alone ends
        uint32_t estimate(uint32_t, uint32_t to) const { return std::min(table[to], bound) + onward; }
    };
    const Reservations& reservations;

private:
    Leg legs_[MOST_LEGS];
    uint32_t stays_[MOST_LEGS];    // where a leg ends, for how long the agent stays there; 0 for the last
    uint32_t last_ = 0, goal_ = NONE, limit_ = 0;

public:
    explicit Errand(const Reservations& others) : reservations(others) {}

    void deliver(const Tour& tour, const Bounded* fields, uint32_t passable) {
        last_ = tour.count - 1;
        goal_ = tour.stops[last_];
        uint32_t onward = 0, staying = 0;
        for (uint32_t leg = tour.count; leg-- > 0;) {
            legs_[leg] = {fields[leg].table, fields[leg].bound, onward, leg == last_ ? NONE : tour.stops[leg]};
            stays_[leg] = tour.stays[leg];
            if (leg == 0) break;
            onward = std::min(estimate(leg, tour.stops[leg - 1]) + tour.stays[leg - 1], UNSEEN);
            staying += tour.stays[leg - 1];
        }
        set_limit(passable, staying);
    }

    void park(const Bounded& field, uint32_t passable) {
        last_ = 0;
        goal_ = NONE;
        legs_[0] = {field.table, field.bound, 0, NONE};
        set_limit(passable, 0);
    }

    const Leg& leg(uint32_t number) const { return legs_[number]; }
    const Leg& beside(uint32_t number, uint32_t) const { return legs_[number]; }
    uint32_t legs() const { return last_ + 1; }
    uint32_t limit() const { return limit_; }    // no least path is longer

    uint32_t estimate(uint32_t leg, uint32_t cell) const {
        return std::min(std::min(legs_[leg].table[cell], legs_[leg].bound) + legs_[leg].onward, UNSEEN);
    }

    // A stop may be named several times in a row: one visit serves them all, up to one at which it stays.
    uint32_t arrive(uint32_t leg, uint32_t cell) const {
        while (legs_[leg].stop == cell && stays_[leg] == 0) ++leg;
        return leg;
    }

    // How long an agent that is at a cell has to stay before it has done with the leg's stop; 0 where it is elsewhere.
    uint32_t stay_at(uint32_t leg, uint32_t cell) const { return legs_[leg].stop == cell ? stays_[leg] : 0; }

    bool is_end(uint32_t leg, uint32_t cell, uint32_t time) const {
        if (leg != last_) return false;
        if (goal_ != NONE) return cell == goal_ && time >= reservations.soonest();
        return legs_[0].table[cell] == 0 && reservations.rest_from(cell) <= time;
    }

private:
    // From the horizon on each leg is a walk on a still map, and comes to no place twice.
    void set_limit(uint64_t passable, uint64_t staying) {
        limit_ = uint32_t(std::min<uint64_t>(reservations.horizon() + legs() * passable + staying, UNSEEN - 1));
    }
};
