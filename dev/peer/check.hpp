// Built with -DCHECK, the peer checks each task that it chooses and each path that it finds by plain means, and aborts
// at the first that is wrong. Without it nothing of this is built.
#pragma once

#ifndef CHECK
#define CHECK_PATH(...)
#define CHECK_NEAREST(...)
#else
#define CHECK_PATH(...) PathCheck{__VA_ARGS__}.check()
#define CHECK_NEAREST(...) check_nearest(__VA_ARGS__)

#include <numeric>

#include "fields.hpp"
#include "timetable.hpp"
#include "tour.hpp"

inline void demand(bool good, const char* what) {
    if (good) return;
    fprintf(stderr, "CHECK: %s\n", what);
    abort();
}

struct PathCheck {
    const Site& site;
    const Timetable& timetable;
    uint32_t self;
    const std::vector<uint32_t>& path;    // empty where none was found
    const Tour* tour;    // null: a parking is sought, where the field is 0
    const uint32_t* field;
    uint32_t slack;    // the path may be so many steps late

    // How far an agent has come: the leg, and how long it has been at the leg's stop.
    struct Come {
        uint32_t leg, stayed;
    };

    void check() const {
        if (path.empty()) return check_none();
        uint32_t horizon = uint32_t(path.size());
        for (uint32_t agent = 0; agent < timetable.agents(); ++agent)
            horizon = std::max(horizon, timetable.left(agent));
        demand(path[0] == at(self, 0), "the path starts elsewhere");
        for (uint32_t time = 0; time < horizon; ++time) {
            const uint32_t from = path[std::min<size_t>(time, path.size() - 1)];
            const uint32_t to = path[std::min<size_t>(time + 1, path.size() - 1)];
            const uint32_t apart = from < to ? to - from : from - to;
            demand(apart <= 1 || apart == site.grid.stride, "no walk");
            demand(site.grid.places[to] == UNSEEN, "the path enters a blocked cell");
            demand(is_free(from, to, time), "the path meets another");
        }
        Come come = come_at({0, 0}, path[0], false);
        for (size_t time = 1; time < path.size(); ++time) come = come_at(come, path[time], path[time - 1] == path[time]);
        demand(come.leg + 1 == legs() && is_goal(path.back()), "the path serves not its errand");
        // more would take minutes
        if (size_t(site.grid.passable) * timetable.agents() <= 50000)
            demand(plain_length(horizon, uint32_t(path.size())) + 1 + slack >= path.size(), "the path is late");
    }

    // No path was found. From the horizon on each leg is a walk on a still map.
    void check_none() const {
        uint32_t horizon = 0;
        for (uint32_t agent = 0; agent < timetable.agents(); ++agent)
            if (agent != self) horizon = std::max(horizon, timetable.left(agent));
        if (size_t(site.grid.passable) * timetable.agents() <= 4000)
            demand(plain_length(horizon, horizon + legs() * site.grid.passable + staying() + 1) == NONE - 1, "there is a path");
    }

    // Where an agent is by its path, so many steps from now.
    uint32_t at(uint32_t agent, uint32_t time) const { return timetable.at(agent, timetable.now() + time); }

    bool is_free(uint32_t from, uint32_t to, uint32_t time) const {
        for (uint32_t agent = 0; agent < timetable.agents(); ++agent) {
            if (agent == self) continue;
            const uint32_t before = at(agent, time), after = at(agent, time + 1);
            if (after == to || (before == to && after == from)) return false;
            if (site.nofollow && from != to && (before == to || after == from)) return false;
        }
        return true;
    }

    bool is_goal(uint32_t cell) const {
        for (uint32_t agent = 0; agent < timetable.agents(); ++agent)
            if (agent != self && timetable.at(agent, NONE) == cell) return false;
        return tour ? cell == tour->stops[tour->count - 1] : field[cell] == 0;
    }

    uint32_t legs() const { return tour ? tour->count : 1; }
    uint32_t staying() const { return tour ? std::accumulate(tour->stays, tour->stays + tour->count, 0u) : 0; }
    uint32_t longest() const { return tour ? *std::max_element(tour->stays, tour->stays + tour->count) : 0; }

    // One tick later at a cell, where it was before or not.
    Come come_at(Come come, uint32_t cell, bool was_there) const {
        uint32_t stayed = was_there ? come.stayed + 1 : 0;
        while (come.leg + 1 < legs() && tour->stops[come.leg] == cell && stayed >= tour->stays[come.leg]) ++come.leg, stayed = 0;
        const bool is_there = come.leg + 1 < legs() && tour->stops[come.leg] == cell;
        return {come.leg, is_there ? stayed : 0};
    }

    bool may_rest(uint32_t cell, uint32_t time, uint32_t horizon) const {
        for (; time < horizon; ++time)
            if (!is_free(cell, cell, time)) return false;
        return true;
    }

    // The steps of a least path, by all states of each time in turn.
    uint32_t plain_length(uint32_t horizon, uint32_t most) const {
        const uint32_t start = at(self, 0), stride = site.grid.stride, room = MOST_LEGS * (longest() + 1);
        const auto state_of = [&](uint32_t cell, Come come) { return cell * room + come.leg * (longest() + 1) + come.stayed; };
        std::vector<uint32_t> now{state_of(start, come_at({0, 0}, start, false))}, next;
        std::vector<uint32_t> met(site.grid.size() * room, 0);
        for (uint32_t time = 0; time < most; ++time, now.swap(next), next.clear()) {
            for (const uint32_t state : now) {
                const uint32_t cell = state / room;
                const Come come{state % room / (longest() + 1), state % (longest() + 1)};
                if (come.leg + 1 == legs() && is_goal(cell) && may_rest(cell, time, horizon)) return time;
                for (const uint32_t to : {cell, cell - 1, cell + 1, cell - stride, cell + stride}) {
                    const uint32_t reached = state_of(to, come_at(come, to, to == cell));
                    if (site.grid.places[to] != UNSEEN || met[reached] == time + 1) continue;
                    if (!is_free(cell, to, time)) continue;
                    met[reached] = time + 1;
                    next.push_back(reached);
                }
            }
        }
        return NONE - 1;
    }
};

template <typename Tasks>
void check_nearest(const Grid& grid, const Tasks& tasks, const PathEnds& ends, uint32_t self, uint32_t here,
                   uint32_t found) {
    std::vector<uint32_t> field = grid.places, queue(grid.size());
    field[here] = 0;
    queue[0] = here;
    fill(field.data(), queue.data(), 1, grid.stride);
    uint32_t best = NONE, least = NONE;
    bool is_urgent = false;
    for (uint32_t number = 0; number < tasks.size(); ++number) {
        const auto& task = tasks[number];
        bool clear = task.agent == NONE;
        for (uint32_t stop = 0; stop < task.count; ++stop) clear = clear && !ends.is_others(self, task.stops[stop]);
        const uint32_t distance = field[task.stops[0]];
        if (!clear || task.is_urgent < is_urgent) continue;
        if (task.is_urgent > is_urgent) is_urgent = true, least = NONE;
        if (distance < least) least = distance, best = number;
    }
    demand(best == found, "another task is nearer");
}
#endif
