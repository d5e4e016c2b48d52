// The search for a least path over places and times, round the paths of all others: the straight pass, and where that
// finds none the search over intervals, guided by the same estimates; or, where those that stay bar the way to a stop,
// both anew, on the map without their places. Of several least paths the one must be found that the product
// finds, as all later replies depend on it: main.cpp says by which rules.
#pragma once

#include "check.hpp"
#include "detours.hpp"
#include "intervals.hpp"
#include "straight.hpp"

class Search {
    const Site& site_;
    const Timetable& timetable_;
    const uint32_t slack_;    // a path may be so many steps late
    Reservations reservations_;
    Errand errand_;
    Unguided unguided_;
    Straight straight_;
    Intervals intervals_;
    Detours detours_;

    static constexpr uint64_t TIMES = 32;    // as many states as the way has steps may lead nowhere
    static constexpr uint32_t LONG = 128;    // steps; a field costs up to their square, a look some times as many

public:
    std::vector<uint32_t> path;    // the last that was found

    Search(const Site& site, const Timetable& timetable, uint32_t slack)
        : site_(site), timetable_(timetable), slack_(slack), reservations_(timetable, site.nofollow), errand_(reservations_),
          unguided_(site.grid, reservations_), straight_(site.grid), intervals_(site.grid), detours_(site.grid) {}

    void tell_counts() const {
        fprintf(stderr, "expanded %llu most %llu\n", (unsigned long long)intervals_.expanded(), (unsigned long long)intervals_.most());
    }

    // A least path through the stops that is as long as they are apart by columns and rows, where that is far.
    bool deliver_unguided(uint32_t self, uint32_t start, const Tour& tour) {
        if (tour.has_stays()) return false;
        reservations_.look(self, tour.stops[tour.count - 1]);
        unguided_.deliver(tour.stops, tour.count);
        const uint32_t first = unguided_.arrive(0, start);
        const uint32_t whole = unguided_.estimate(first, start);
        if (whole < LONG || whole < least_of(unguided_, first, start)) return false;
        if (straight_.find(unguided_, start, first, whole, whole, path) != Looked::FOUND) return false;
        CHECK_PATH(site_, timetable_, self, path, &tour, nullptr, slack_);
        return true;
    }

    // A least path through the stops.
    bool deliver(uint32_t self, uint32_t start, const Tour& tour, const Bounded* fields) {
        reservations_.look(self, tour.stops[tour.count - 1]);
        errand_.deliver(tour, fields, site_.grid.passable);
        const bool found = run(start, &tour, fields);
        if (!found) path.clear();
        CHECK_PATH(site_, timetable_, self, path, &tour, nullptr, slack_);
        return found;
    }

    // A least path to a cell where the field is 0. It is filled as far as the start, and all of it where no path has so
    // few steps: beyond what is filled all places are alike.
    bool park(uint32_t self, uint32_t start, Filling field) {
        reservations_.look(self, NONE);
        field.until(start);
        const uint32_t whole = field.table[start];
        errand_.park({field.table, whole == UNSEEN ? UNSEEN : whole + 1}, site_.grid.passable);
        bool found = whole <= errand_.limit();
        if (found && straight_.find(errand_, start, 0, whole, NONE, path) != Looked::FOUND) {
            field.rest();
            errand_.park({field.table, UNSEEN}, site_.grid.passable);
            found = intervals_.find(errand_, start, 0, whole + 1 + slack_, path);
        }
        if (!found) path.clear();
        CHECK_PATH(site_, timetable_, self, path, nullptr, field.table, slack_);
        return found;
    }

private:
    // No path is shorter: it comes to each stop when the agent may be there, and from one to the next takes the steps that are estimated.
    template <typename Guide>
    uint32_t least_of(const Guide& guide, uint32_t first, uint32_t start) const {
        uint32_t time = 0, cell = start;
        for (uint32_t leg = first; leg + 1 < guide.legs(); ++leg) {
            const uint32_t stop = guide.leg(leg).stop;
            time = reservations_.visit_from(stop, time + guide.estimate(leg, cell) - guide.leg(leg).onward) + guide.stay_at(leg, stop);
            cell = stop;
        }
        return std::max(reservations_.first_end(), time + guide.estimate(guide.legs() - 1, cell));
    }

    // By the errand's estimates. The fields are those of the tour where a detour may be made.
    bool run(uint32_t start, const Tour* tour, const Bounded* fields) {
        const uint32_t first = errand_.arrive(0, start);
        const uint32_t whole = errand_.estimate(first, start);
        if (whole > errand_.limit()) return false;
        uint32_t least = std::max(least_of(errand_, first, start), whole);
        if (whole == least) {
            const Looked looked = straight_.find(errand_, start, first, whole, TIMES * uint64_t(whole), path);
            if (looked == Looked::FOUND) return true;
            if (looked == Looked::LONGER) least = whole + 1;
        }
        if (fields)
            if (const uint32_t legs = detours_.barred(reservations_, start, tour->stops, tour->count, fields))
                return detour(start, *tour, legs, fields);
        return intervals_.find(errand_, start, first, least + slack_, path);
    }

    bool detour(uint32_t start, const Tour& tour, uint32_t legs, const Bounded* fields) {
        Bounded anew[MOST_LEGS];
        std::copy(fields, fields + tour.count, anew);
        detours_.make(reservations_, start, tour.stops, tour.count, legs, anew);
        errand_.deliver(tour, anew, detours_.passable());
        return run(start, nullptr, nullptr);
    }
};
