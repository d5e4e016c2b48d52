// Who is where and when: the paths of all agents, and the stays at each place. It is kept from request to request; its
// times count from the opening on, so that a tick changes no stay.
#pragma once

#include <algorithm>

#include "site.hpp"

// For each place the agent whose path ends there: at most one, as none may end where another does.
struct PathEnds {
    std::vector<uint16_t> agents;
    bool is_others(uint32_t self, uint32_t cell) const { return agents[cell] != NOBODY && agents[cell] != self; }
};

class Timetable {
public:
    // An agent is at a cell from one time to another, both included. The last stay of a path is to NONE: for good.
    struct Stay {
        uint32_t cell, agent, from, to;
        bool is_during(uint32_t time) const { return from <= time && time <= to; }
    };
    using Stays = std::vector<Stay>;

private:
    static constexpr size_t MOST_SLOTS = 16384;

    struct Path {
        std::vector<uint32_t> cells;
        uint32_t since = 0;    // when the agent is at the first cell
        uint32_t end = 0;      // when it is at the last one, where it stays
    };
    // The stays at the cells that share a slot, in no order, and for how many more of them room is still to be made.
    struct Slot {
        Stays stays;
        size_t wanted = 0;
        // Once for all of them. Where they are few it is room for four and a quarter of those that are there, so that all
        // seldom move.
        void grow() {
            if (stays.capacity() - stays.size() < wanted) stays.reserve(stays.size() + std::max(wanted, 4 + stays.size() / 4));
            wanted = 0;
        }
    };
    std::vector<Path> paths_;
    std::vector<Slot> slots_;
    uint32_t mask_ = 0;
    uint32_t now_ = 0;

public:
    Timetable(const std::vector<uint32_t>& starts, size_t places) : paths_(starts.size()) {
        size_t size = 1;
        while (size < places && size < MOST_SLOTS) size *= 2;
        slots_.resize(size);
        mask_ = uint32_t(size - 1);
        for (uint32_t agent = 0; agent < paths_.size(); ++agent) adopt(agent, {starts[agent]});
    }

    uint32_t agents() const { return uint32_t(paths_.size()); }
    uint32_t now() const { return now_; }
    uint32_t end(uint32_t agent) const { return paths_[agent].end; }
    uint32_t left(uint32_t agent) const { return end(agent) > now_ ? end(agent) - now_ : 0; }    // its steps

    // Where an agent is at a time from when it took its path on.
    uint32_t at(uint32_t agent, uint32_t time) const {
        const Path& path = paths_[agent];
        return path.cells[std::min(time, path.end) - path.since];
    }

    // All stays from now on at a cell, among some at others and some that are over.
    const Stays& stays(uint32_t cell) const { return slots_[slot(cell)].stays; }

    void tick() { ++now_; }

    // The agent goes by another path from now on.
    void adopt(uint32_t agent, const std::vector<uint32_t>& cells) {
        Path& path = paths_[agent];
        drop(agent, path.cells);
        path.cells.assign(cells.begin(), cells.end());
        path.since = now_;
        path.end = now_ + uint32_t(cells.size()) - 1;
        put_in(agent, path);
    }

private:
    uint32_t slot(uint32_t cell) const { return (cell * 2654435761u >> 12) & mask_; }

    // Takes the agent's stays out, and all that are over at the slots that its path met.
    void drop(uint32_t agent, const std::vector<uint32_t>& cells) {
        uint32_t before = NONE;
        for (const uint32_t cell : cells) {
            if (cell == before) continue;
            before = cell;
            Stays& stays = slots_[slot(cell)].stays;
            const auto is_gone = [&](const Stay& stay) { return stay.agent == agent || stay.to < now_; };
            stays.erase(std::remove_if(stays.begin(), stays.end(), is_gone), stays.end());
        }
    }

    // Makes room for the stays of a path, at each slot once for all of them.
    void make_room(const std::vector<uint32_t>& cells) {
        uint32_t before = NONE;
        for (const uint32_t cell : cells) {
            slots_[slot(cell)].wanted += cell != before;
            before = cell;
        }
        for (const uint32_t cell : cells) slots_[slot(cell)].grow();
    }

    void put_in(uint32_t agent, const Path& path) {
        make_room(path.cells);
        Stay stay{path.cells[0], agent, now_, now_};
        for (uint32_t time = now_; time < path.end; ++time) {
            const uint32_t next = path.cells[time + 1 - now_];
            if (next == stay.cell) continue;
            stay.to = time;
            slots_[slot(stay.cell)].stays.push_back(stay);
            stay = {next, agent, time + 1, time + 1};
        }
        stay.to = NONE;
        slots_[slot(stay.cell)].stays.push_back(stay);
    }
};
