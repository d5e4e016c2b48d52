// The straight pass: before anything is searched for, a look for a path of just as many steps as are estimated at its
// start. On such a path the estimate falls by one with each step, so only such steps are tried, depth first, of the
// moves the last one first; where they lead nowhere is remembered, by place and leg, as the estimate tells the time.
// It is guided by an errand or by no field at all, and given up where more places than `most` lead nowhere.
#pragma once

#include "unguided.hpp"

enum class Looked { FOUND, LONGER, GIVEN_UP };

class Straight {
    struct Stand {
        uint32_t cell, leg, move;
        uint32_t stayed;    // how long it has been at the leg's stop
    };
    const Grid& grid_;
    std::vector<Stand> way_;
    std::vector<uint32_t> hopeless_;    // by leg and place: the number of the last pass in which it was
    uint32_t pass_ = 0;
    bool any_hopeless_ = false;

public:
    explicit Straight(const Grid& grid) : grid_(grid) {}

    template <typename Guide>
    Looked find(const Guide& errand, uint32_t start, uint32_t first, uint32_t whole, uint64_t most,
                std::vector<uint32_t>& path) {
        any_hopeless_ = false;
        uint64_t hopeless = 0;
        way_.assign(1, {start, first, 0, 0});
        for (uint32_t untried = MOVES;;) {
            const Stand here = way_.back();
            const uint32_t time = uint32_t(way_.size()) - 1;
            if (time == whole && errand.is_end(here.leg, here.cell, time)) {
                path.clear();
                for (const Stand& stand : way_) path.push_back(stand.cell);
                return Looked::FOUND;
            }
            if (time < whole && (go_on(errand, here, time, whole - time, untried) || (untried == MOVES && stay_on(errand, here, time)))) {
                untried = MOVES;
                continue;
            }
            if (time == 0) return Looked::LONGER;
            if (++hopeless > most) return Looked::GIVEN_UP;
            note_hopeless(errand, here);
            way_.pop_back();
            untried = here.move;
        }
    }

private:
    template <typename Guide>
    bool go_on(const Guide& errand, const Stand& here, uint32_t time, uint32_t left, uint32_t untried) {
        const auto& by = errand.beside(here.leg, here.cell);
        uint32_t nexts[MOVES];
        list_moves(here.cell, grid_.stride, nexts);
        while (untried-- > 0) {
            const uint32_t to = nexts[untried];
            if (by.estimate(untried, to) >= left) continue;
            const uint32_t leg = UNLIKELY(to == by.stop) ? errand.arrive(here.leg, to) : here.leg;
            if (UNLIKELY(any_hopeless_) && hopeless_[leg * grid_.size() + to] == pass_) continue;
            if (!errand.reservations.allows(here.cell, to, time)) continue;
            way_.push_back({to, leg, untried, 0});
            return true;
        }
        return false;
    }

    // At its next stop each tick of the stay lowers the estimate, and no step does.
    template <typename Guide>
    bool stay_on(const Guide& errand, const Stand& here, uint32_t time) {
        const uint32_t stay = errand.stay_at(here.leg, here.cell);
        if (stay == 0 || !errand.reservations.allows(here.cell, here.cell, time)) return false;
        const bool is_over = here.stayed + 1 == stay;
        way_.push_back({here.cell, is_over ? errand.arrive(here.leg + 1, here.cell) : here.leg, 0, is_over ? 0 : here.stayed + 1});
        return true;
    }

    template <typename Guide>
    void note_hopeless(const Guide& errand, const Stand& stand) {
        if (!any_hopeless_) {
            any_hopeless_ = true;
            const size_t size = errand.legs() * grid_.size();
            if (hopeless_.size() < size) hopeless_.resize(size, 0);
            if (++pass_ == 0) {
                std::fill(hopeless_.begin(), hopeless_.end(), 0);
                pass_ = 1;
            }
        }
        hopeless_[stand.leg * grid_.size() + stand.cell] = pass_;
    }
};
