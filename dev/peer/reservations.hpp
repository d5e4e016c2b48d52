// Whether an agent may step to a cell or stay there, against the paths of all others: the timetable, but for its own
// stays. Its times count from now on, as those of a search.
#pragma once

#include "timetable.hpp"

class Reservations {
    using Stay = Timetable::Stay;
    const Timetable& timetable_;
    const bool nofollow_;
    uint32_t self_ = 0, horizon_ = 0, soonest_ = 0;

public:
    Reservations(const Timetable& timetable, bool nofollow) : timetable_(timetable), nofollow_(nofollow) {}

    uint32_t horizon() const { return horizon_; }    // from then on no other moves
    uint32_t soonest() const { return soonest_; }    // from then on no other comes to the goal
    // No path ends at the goal before: under the rule nobody comes there in the step after another left it.
    uint32_t first_end() const { return soonest_ + (nofollow_ && soonest_ > 0); }

    // Who plans now, and for which goal; NONE where it parks.
    void look(uint32_t self, uint32_t goal) {
        self_ = self;
        horizon_ = 0;
        for (uint32_t agent = 0; agent < timetable_.agents(); ++agent)
            if (agent != self) horizon_ = std::max(horizon_, timetable_.left(agent));
        soonest_ = goal == NONE ? 0 : rest_from(goal);
    }

    // Whether the agent may go from one cell to the other, or stay, in the step behind this time.
    bool allows(uint32_t from, uint32_t to, uint32_t time) const {
        const uint32_t now = timetable_.now() + time;
        for (const Stay& stay : timetable_.stays(to)) {
            if (stay.cell != to || stay.from > now + 1 || stay.to < now || stay.agent == self_) continue;
            if (stay.to > now) return false;
            if (to == from) continue;    // somebody leaves it just now
            if (nofollow_ || timetable_.at(stay.agent, now + 1) == from) return false;
        }
        return LIKELY(!nofollow_) || to == from || !stay_at(from, time + 1);
    }

    // The last time up to which nobody is at a cell, where nobody is now; NONE where nobody ever comes again.
    uint32_t free_until(uint32_t cell, uint32_t time) const {
        const uint32_t now = timetable_.now() + time;
        uint32_t next = NONE;
        for (const Stay& stay : timetable_.stays(cell))
            if (stay.cell == cell && stay.from > now && stay.from < next && stay.agent != self_) next = stay.from;
        return next == NONE ? NONE : next - 1 - timetable_.now();
    }

    // The first time from this one on at which nobody is at a cell; NONE where somebody always is.
    uint32_t next_free(uint32_t cell, uint32_t time) const {
        for (;;) {
            const Stay* stay = stay_at(cell, time);
            if (!stay) return time;
            if (stay->to == NONE) return NONE;
            time = stay->to + 1 - timetable_.now();
        }
    }

    // From this time on the first one at which the agent may be at a cell: nobody else is; under the rule nobody was just
    // before either. This time where there is none.
    uint32_t visit_from(uint32_t cell, uint32_t time) const {
        for (uint32_t next = time;; ++next) {
            next = next_free(cell, next);
            if (next == NONE) return time;
            if (!nofollow_ || next == 0 || !stay_at(cell, next - 1)) return next;
        }
    }

    // Whether somebody is at a cell at each time from this one on.
    bool is_taken(uint32_t cell, uint32_t time) const { return next_free(cell, time) == NONE; }

    // From when on nobody else is at a cell where no other ends.
    uint32_t rest_from(uint32_t cell) const {
        uint32_t free = timetable_.now();
        for (const Stay& stay : timetable_.stays(cell)) {
            if (stay.cell != cell || stay.agent == self_) continue;
            if (stay.to == NONE) return NONE;
            free = std::max(free, stay.to + 1);
        }
        return free - timetable_.now();
    }

    // Calls with the cell at which each other comes to rest.
    template <typename Call>
    void for_each_end(Call call) const {
        for (uint32_t agent = 0; agent < timetable_.agents(); ++agent)
            if (agent != self_) call(timetable_.at(agent, timetable_.end(agent)));
    }

private:
    // The stay of another at a cell that takes in a time; null where none does.
    const Stay* stay_at(uint32_t cell, uint32_t time) const {
        const uint32_t now = timetable_.now() + time;
        for (const Stay& stay : timetable_.stays(cell))
            if (stay.cell == cell && stay.is_during(now) && stay.agent != self_) return &stay;
        return nullptr;
    }
};
