// A task whose way is estimated by columns and rows alone, so that no field need be filled.
#pragma once

#include "errand.hpp"

class Unguided {
    struct Leg {
        int32_t x, y;
        uint32_t onward, stop;
    };
    const Grid& grid_;
    Leg legs_[MOST_LEGS];
    uint32_t last_ = 0, goal_ = NONE;

    static uint32_t apart(int32_t one, int32_t other) { return uint32_t(one < other ? other - one : one - other); }
    int32_t x(uint32_t cell) const { return int32_t(cell % grid_.stride); }
    int32_t y(uint32_t cell) const { return int32_t(cell / grid_.stride); }

public:
    const Reservations& reservations;

    Unguided(const Grid& grid, const Reservations& others) : grid_(grid), reservations(others) {}

    void deliver(const uint32_t* stops, uint32_t count) {
        last_ = count - 1;
        goal_ = stops[last_];
        for (uint32_t leg = count, onward = 0; leg-- > 0;) {
            legs_[leg] = {x(stops[leg]), y(stops[leg]), onward, leg == last_ ? NONE : stops[leg]};
            if (leg != 0) onward = estimate(leg, stops[leg - 1]);
        }
    }

    uint32_t legs() const { return last_ + 1; }
    const Leg& leg(uint32_t number) const { return legs_[number]; }

    uint32_t estimate(uint32_t leg, uint32_t cell) const {
        return apart(x(cell), legs_[leg].x) + apart(y(cell), legs_[leg].y) + legs_[leg].onward;
    }

    uint32_t arrive(uint32_t leg, uint32_t cell) const {
        while (legs_[leg].stop == cell) ++leg;
        return leg;
    }

    uint32_t stay_at(uint32_t, uint32_t) const { return 0; }    // it is not asked where a task has a stay

    bool is_end(uint32_t leg, uint32_t cell, uint32_t time) const {
        return leg == last_ && cell == goal_ && time >= reservations.soonest();
    }

    // The estimates at a cell and beside it, by moves. A blocked place is farther than all.
    struct Beside {
        const uint32_t* places;
        const Leg& leg;
        int32_t x, y;
        uint32_t stop;
        uint32_t estimate(uint32_t move, uint32_t to) const {
            static constexpr int32_t ACROSS[MOVES] = {0, -1, 1, 0, 0}, DOWN[MOVES] = {0, 0, 0, -1, 1};
            if (places[to] != UNSEEN) return UNSEEN;
            return apart(x + ACROSS[move], leg.x) + apart(y + DOWN[move], leg.y) + leg.onward;
        }
    };

    Beside beside(uint32_t leg, uint32_t cell) const {
        return {grid_.places.data(), legs_[leg], x(cell), y(cell), legs_[leg].stop};
    }
};
