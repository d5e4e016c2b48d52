// The warehouse: agents, tasks and the clock, and what each command does to them and answers.
#pragma once

#include "log.hpp"
#include "search.hpp"
#include "tasks.hpp"

struct Agent {
    uint32_t here = 0;
    uint32_t task = NONE;
    uint32_t wanted = NONE;    // the cell of its next stop
    uint32_t since = NONE;     // from when on it has been there; NONE where it is elsewhere
};

struct Visits {
    uint32_t picked = 0, dropped = 0;
};

class Warehouse {
    Site site_;
    Output& output_;
    const bool homes_;    // paths go on home: from the last stop to where the agent starts
    const bool full_;     // replies tell each cell of a path
    bool is_closed_ = false;
    std::vector<Agent> agents_;
    Timetable timetable_;
    Tasks tasks_;
    PathEnds ends_;
    std::vector<uint32_t> queue_;    // shared by all that goes breadth first, so that it stays in the cache
    Fields fields_;
    NearestTask nearest_;
    Search search_;
    History history_;

public:
    Warehouse(Site&& site, Output& output, bool homes, bool full, uint32_t slack)
        : site_(std::move(site)), output_(output), homes_(homes), full_(full), agents_(site_.starts.size()),
          timetable_(site_.starts, site_.grid.size()), tasks_(site_.grid.size()),
          ends_{std::vector<uint16_t>(site_.grid.size(), NOBODY)}, queue_(site_.grid.size()),
          fields_(site_.grid, queue_, agents_.size()), nearest_(site_.grid, queue_), search_(site_, timetable_, slack) {
        for (uint32_t agent = 0; agent < agents_.size(); ++agent) {
            const uint32_t start = site_.starts[agent];
            if (ends_.agents[start] != NOBODY) die("two agents start at one point");
            ends_.agents[start] = uint16_t(agent);
            tasks_.bar(start);
            agents_[agent].here = start;
        }
    }

    void tell_counts() const { search_.tell_counts(); }

    void submit(const Submission& submission) {
        const uint32_t kept = history_.keep_submission(submission);
        if (UNLIKELY(is_closed_)) return refuse_closed(Event::SUBMIT, kept);
        Task task{};
        for (uint32_t stop = 0; stop < submission.count; ++stop) {
            const uint32_t point = site_.find(submission.stops[stop]);
            if (point == NONE) {
                history_.note(Event::SUBMIT, kept, Reply::E1, stop);
                return output_.line("refused E1 ", submission.stops[stop]);
            }
            if (!site_.points[point].is_station) {
                history_.note(Event::SUBMIT, kept, Reply::E2, stop);
                return output_.line("refused E2 ", submission.stops[stop]);
            }
            task.stops[stop] = site_.points[point].cell;
            task.stays[stop] = submission.stays[stop];
        }
        if (UNLIKELY(tasks_.size() == MOST_TASKS)) {
            history_.note(Event::SUBMIT, kept, Reply::E3);
            return output_.line("refused E3");
        }
        task.count = uint8_t(submission.count);
        task.is_urgent = submission.is_urgent;
        task.agent = NONE;
        task.submitted = timetable_.now();
        const uint32_t number = tasks_.add(task);
        history_.note(Event::SUBMIT, kept, Reply::ACCEPTED, number);
        output_.line("accepted ", number);
    }

    void token(uint32_t self) {
        if (UNLIKELY(is_closed_)) return refuse_closed(Event::TOKEN, self);
        if (UNLIKELY(self >= agents_.size())) return refuse_unknown(Event::TOKEN, self);
        if (const uint32_t left = ticks_until_idle(self)) {
            history_.note(Event::TOKEN, self, Reply::E5, left);
            return output_.line("refused E5 ", left);
        }
        if (!tasks_.has_open() || (tasks_.clear().empty() && !tasks_.is_stop(agents_[self].here))) return rest(self);
        choose(self);
    }

    void tick() {
        if (UNLIKELY(is_closed_)) return refuse_closed(Event::TICK, 0);
        if (UNLIKELY(timetable_.now() == LAST_CLOCK)) {
            history_.note(Event::TICK, 0, Reply::E7);
            return output_.line("refused E7");
        }
        timetable_.tick();
        const uint32_t clock = timetable_.now();
        Visits visits;
        for (uint32_t self = 0; self < agents_.size(); ++self) {
            if (timetable_.end(self) < clock) continue;    // it has been there before
            Agent& agent = agents_[self];
            agent.here = timetable_.at(self, clock);
            if (agent.here == agent.wanted) arrive(agent, visits);
            else agent.since = NONE;
        }
        history_.note(Event::TICK, 0, Reply::CLOCK, clock, visits.picked, visits.dropped);
        output_.line("clock ", clock, " picked ", visits.picked, " dropped ", visits.dropped);
    }

    // A replay without spare planners, which is all that the peer does, has none to hand in.
    void replace(uint32_t self) {
        if (is_closed_) return refuse_closed(Event::REPLACE, self);
        if (self >= agents_.size()) return refuse_unknown(Event::REPLACE, self);
        history_.note(Event::REPLACE, self, Reply::E10);
        output_.line("refused E10");
    }

    void close() {
        if (is_closed_) return refuse_closed(Event::CLOSE, 0);
        is_closed_ = true;
        history_.note(Event::CLOSE, 0, Reply::CLOSED);
        output_.line("closed");
    }

    void write_log() { LogWriter(history_, site_, output_).write(); }

private:
    void refuse_closed(Event event, uint32_t argument) {
        history_.note(event, argument, Reply::E8);
        output_.line("refused E8");
    }

    void refuse_unknown(Event event, uint32_t self) {
        history_.note(event, self, Reply::E4, self);
        output_.line("refused E4 ", self);
    }

    void refuse_path(uint32_t self) {
        history_.note(Event::TOKEN, self, Reply::E6);
        output_.line("refused E6");
    }

    void rest(uint32_t self) {
        history_.note(Event::TOKEN, self, Reply::RESTED);
        output_.line("rested");
    }

    // Until it has no steps left; or, where paths go on home, no task: it may still walk.
    uint32_t ticks_until_idle(uint32_t self) const {
        if (!homes_) return timetable_.left(self);
        if (agents_[self].task == NONE) return 0;
        const Task& task = tasks_[agents_[self].task];
        uint32_t time = timetable_.now(), since = agents_[self].since;
        for (uint32_t stop = task.visited; stop < task.count; ++time) {
            if (timetable_.at(self, time) != task.stops[stop]) since = NONE;
            else if (since == NONE) since = time;
            for (; stop < task.count && timetable_.at(self, time) == task.stops[stop] && time >= since + task.stays[stop]; ++stop) since = time;
        }
        return time - 1 - timetable_.now();
    }

    void choose(uint32_t self) {
        const uint32_t here = agents_[self].here;
        const uint32_t number = nearest_.find(tasks_, ends_, self, here);
        if (number != NONE) return take(self, number);
        if (tasks_.is_last_stop(here)) return make_way(self);
        rest(self);
    }

    void take(uint32_t self, uint32_t number) {
        Agent& agent = agents_[self];
        const Task& task = tasks_[number];
        if (!deliver(self, agent.here, tour(self, task))) return refuse_path(self);
        const std::vector<uint32_t>& path = search_.path;
        const uint32_t kept = adopt(self, path);
        tasks_.assign(number, self);
        agent.task = number;
        agent.wanted = task.stops[0];
        Visits visits;    // no tick made them, so no reply tells them
        if (agent.here == agent.wanted) arrive(agent, visits);
        history_.note(Event::TOKEN, self, Reply::TOOK, number, kept, uint32_t(path.size()));
        output_.piece("took ", number);
        tell_path(path);
    }

    // Where the agent goes for a task: through its stops, and on home where paths go there. Else a stay at the last stop
    // is followed by a leg of no steps, so that the search ends none with a stay.
    Tour tour(uint32_t self, const Task& task) const {
        Tour tour;
        for (uint32_t stop = 0; stop < task.count; ++stop) tour.add(task.stops[stop], task.stays[stop]);
        if (homes_) tour.add(site_.starts[self], 0);
        else if (tour.stays[tour.count - 1] != 0) tour.add(task.last_stop(), 0);
        return tour;
    }

    bool deliver(uint32_t self, uint32_t here, const Tour& tour) {
        const uint32_t* const stops = tour.stops;
        if (!are_filled(here, tour) && search_.deliver_unguided(self, here, tour)) return true;
        Bounded fields[MOST_LEGS];
        // the first stops are the last used
        for (uint32_t leg = tour.count; leg-- > 0;) fields[leg] = fields_.get(stops[leg], leg == 0 ? here : stops[leg - 1]);
        return search_.deliver(self, here, tour, fields);
    }

    bool are_filled(uint32_t here, const Tour& tour) const {
        const uint32_t* const stops = tour.stops;
        for (uint32_t leg = 0; leg < tour.count; ++leg)
            if (!fields_.is_filled(stops[leg], site_.grid.apart(leg == 0 ? here : stops[leg - 1], stops[leg]))) return false;
        return true;
    }

    void tell_path(const std::vector<uint32_t>& path) {
        if (!full_) return output_.line(" end ", uint32_t(path.size()) - 1);
        output_.piece(" path");
        for (const uint32_t cell : path) output_.piece(" ", cell % site_.grid.stride, ",", cell / site_.grid.stride - 1);
        output_.line();
    }

    void make_way(uint32_t self) {
        const Filling field = fields_.to_nearest(site_.points, [&](uint32_t cell) {
            return !tasks_.is_last_stop(cell) && !ends_.is_others(self, cell);
        });
        if (!search_.park(self, agents_[self].here, field)) return refuse_path(self);
        const std::vector<uint32_t>& path = search_.path;
        const uint32_t kept = adopt(self, path);
        uint32_t point = 0;
        while (site_.points[point].cell != path.back()) ++point;
        history_.note(Event::TOKEN, self, Reply::PARKED, point, kept, uint32_t(path.size()));
        output_.piece("parked ", site_.points[point].name);
        tell_path(path);
    }

    // The agent goes by a path that was found; answers where the history keeps it.
    uint32_t adopt(uint32_t self, const std::vector<uint32_t>& path) {
        const uint32_t end = timetable_.at(self, NONE);
        ends_.agents[end] = NOBODY;
        tasks_.unbar(end);
        ends_.agents[path.back()] = uint16_t(self);
        tasks_.bar(path.back());
        timetable_.adopt(self, path);
        return history_.keep_path(path);
    }

    // It is at its next stop, which it visits once it was there for the whole stay. A stop may be named several times in
    // a row: one arrival visits them all, but a stay begins where the one before ends.
    void arrive(Agent& agent, Visits& visits) {
        Task& task = tasks_[agent.task];
        const uint32_t now = timetable_.now();
        if (agent.since == NONE) agent.since = now;
        while (task.visited < task.count && task.stops[task.visited] == agent.here) {
            if (now < agent.since + task.stays[task.visited]) return;
            agent.since = now;
            if (task.visited == 0) ++visits.picked;
            ++task.visited;
        }
        agent.since = NONE;
        if (task.visited < task.count) {
            agent.wanted = task.stops[task.visited];
            return;
        }
        ++visits.dropped;
        agent.task = agent.wanted = NONE;
    }
};
