// The tasks, and which of the open ones is the nearest that an agent may take.
#pragma once

#include "check.hpp"
#include "timetable.hpp"

struct Task {
    uint32_t stops[MOST_STOPS];
    uint8_t count, visited;
    bool is_urgent;
    uint32_t agent;
    uint32_t submitted;
    uint32_t stays[MOST_STOPS];
    uint32_t last_stop() const { return stops[count - 1]; }
};

class Tasks {
    // One of the stops of open tasks at a place, by the number of its task and of the stop. They make a list.
    struct Link {
        uint32_t next, before;
    };
    std::vector<Task> tasks_;
    std::vector<Link> links_;    // MOST_STOPS for each task
    std::vector<uint32_t> heads_, drop_counts_;    // by place
    std::vector<uint8_t> is_end_;    // by place, whether a path ends there
    std::vector<uint8_t> barred_;    // by task, at how many of its stops a path ends
    std::vector<uint32_t> clear_, turns_;    // the open tasks that no end bars, and by task where it stands there
    size_t open_ = 0, urgent_ = 0;

    void clear(uint32_t number) {
        turns_[number] = uint32_t(clear_.size());
        clear_.push_back(number);
    }

    void unclear(uint32_t number) {
        const uint32_t last = clear_.back();
        clear_[turns_[number]] = last;
        turns_[last] = turns_[number];
        clear_.pop_back();
    }

public:
    explicit Tasks(size_t places) : heads_(places, NONE), drop_counts_(places, 0), is_end_(places, 0) {}

    size_t size() const { return tasks_.size(); }
    Task& operator[](uint32_t number) { return tasks_[number]; }
    const Task& operator[](uint32_t number) const { return tasks_[number]; }
    bool has_open() const { return open_ != 0; }
    bool has_urgent() const { return urgent_ != 0; }
    const std::vector<uint32_t>& clear() const { return clear_; }
    bool is_stop(uint32_t cell) const { return heads_[cell] != NONE; }       // of an open task
    bool is_last_stop(uint32_t cell) const { return drop_counts_[cell] != 0; }

    // Calls with each open task that has a stop at a place, once for each such stop, and at how many stops it is barred.
    template <typename Call>
    void for_each_at(uint32_t place, Call call) const {
        for (uint32_t link = heads_[place]; link != NONE; link = links_[link].next)
            call(link / MOST_STOPS, barred_[link / MOST_STOPS]);
    }

    uint32_t add(const Task& task) {
        const uint32_t number = uint32_t(tasks_.size());
        tasks_.push_back(task);
        links_.resize(links_.size() + MOST_STOPS);
        turns_.push_back(NONE);
        uint8_t barred = 0;
        for (uint32_t stop = 0; stop < task.count; ++stop) {
            const uint32_t place = task.stops[stop], link = number * MOST_STOPS + stop;
            links_[link] = {heads_[place], NONE};
            if (heads_[place] != NONE) links_[heads_[place]].before = link;
            heads_[place] = link;
            barred += is_end_[place];
        }
        barred_.push_back(barred);
        if (barred == 0) clear(number);
        ++drop_counts_[task.last_stop()];
        ++open_;
        urgent_ += task.is_urgent;
        return number;
    }

    void assign(uint32_t number, uint32_t agent) {
        Task& task = tasks_[number];
        for (uint32_t stop = 0; stop < task.count; ++stop) {
            const Link& link = links_[number * MOST_STOPS + stop];
            if (link.next != NONE) links_[link.next].before = link.before;
            if (link.before != NONE) links_[link.before].next = link.next;
            else heads_[task.stops[stop]] = link.next;
        }
        if (barred_[number] == 0) unclear(number);
        --drop_counts_[task.last_stop()];
        --open_;
        urgent_ -= task.is_urgent;
        task.agent = agent;
    }

    // From now on a path ends at a place, or none does any more.
    void bar(uint32_t place) {
        is_end_[place] = 1;
        for (uint32_t link = heads_[place]; link != NONE; link = links_[link].next)
            if (barred_[link / MOST_STOPS]++ == 0) unclear(link / MOST_STOPS);
    }

    void unbar(uint32_t place) {
        is_end_[place] = 0;
        for (uint32_t link = heads_[place]; link != NONE; link = links_[link].next)
            if (--barred_[link / MOST_STOPS] == 0) clear(link / MOST_STOPS);
    }
};

// Looks from the agent's cell outwards, and so no farther than the nearest task is.
class NearestTask {
    const Grid& grid_;
    std::vector<uint32_t>& queue_;
    // By place: NONE where it is blocked, sought_ where a task starts that may be taken, sought_ + 1 where the look
    // was, else less. Each look has numbers of its own, so that the table need not be cleared.
    std::vector<uint32_t> seen_;
    std::vector<uint32_t> first_;    // the first task that starts at a sought place
    uint32_t sought_ = 0;

public:
    NearestTask(const Grid& grid, std::vector<uint32_t>& queue)
        : grid_(grid), queue_(queue), seen_(grid.size()), first_(grid.size()) {
        for (size_t place = 0; place < grid.size(); ++place) seen_[place] = grid.places[place] == UNSEEN ? 0 : NONE;
    }

    // The agent is where its path ends; or it is on its way home, and no path ends at a stop.
    uint32_t find(const Tasks& tasks, [[maybe_unused]] const PathEnds& ends, [[maybe_unused]] uint32_t self, uint32_t here) {
        uint32_t last = NONE;
        uint32_t found = tasks.has_urgent() ? seek(tasks, here, last, true) : NONE;
        if (found == NONE) found = seek(tasks, here, last, false);
        if (found != last) {    // a sole task need not be looked for
            const uint32_t nearest = seen_[here] == sought_ ? first_[here] : look(here);
            if (nearest != NONE) found = nearest;    // else all are equally far, as no walk leads to any
        }
        CHECK_NEAREST(grid_, tasks, ends, self, here, found);
        return found;
    }

private:
    // Notes where the tasks start at whose stops no other's path ends; answers the first of them, and tells the last. They
    // are those that no end bars, and those that the own end bars alone; or of these the urgent ones.
    uint32_t seek(const Tasks& tasks, uint32_t here, uint32_t& last, bool only_urgent) {
        if (sought_ >= 0xFFFFFFF0) {
            for (uint32_t& seen : seen_)
                if (seen != NONE) seen = 0;
            sought_ = 0;
        }
        sought_ += 2;
        uint32_t eligible = NONE;
        last = 0;
        const auto note = [&](uint32_t number) {
            if (UNLIKELY(only_urgent) && !tasks[number].is_urgent) return;
            eligible = std::min(eligible, number);
            last = std::max(last, number);
            const uint32_t place = tasks[number].stops[0];
            first_[place] = seen_[place] == sought_ ? std::min(first_[place], number) : number;
            seen_[place] = sought_;
        };
        for (const uint32_t number : tasks.clear()) note(number);
        tasks.for_each_at(here, [&](uint32_t number, uint32_t barred) {
            const Task& task = tasks[number];
            if (barred == std::count(task.stops, task.stops + task.count, here)) note(number);
        });
        if (eligible == NONE) last = NONE;
        return eligible;
    }

    // Breadth first up to the end of the ring in which the first sought place is: of equally near tasks the first wins.
    uint32_t look(uint32_t here) {
        const ptrdiff_t stride = grid_.stride;
        const uint32_t sought = sought_, met = sought_ + 1;
        uint32_t* const table = seen_.data();
        uint32_t* head = queue_.data();
        uint32_t* tail = head;
        uint32_t best = NONE;
        const auto visit = [&](uint32_t* seen, uint32_t cell) {
            if (*seen > sought) return;
            if (UNLIKELY(*seen == sought)) best = std::min(best, first_[cell]);
            *seen = met;
            *tail++ = cell;
        };
        visit(table + here, here);
        while (head != tail && best == NONE) {
            for (uint32_t* const end = tail; head != end; ++head) {
                const uint32_t cell = *head;
                uint32_t* const seen = table + cell;
                visit(seen + 1, cell + 1);
                visit(seen - 1, cell - 1);
                visit(seen + stride, cell + uint32_t(stride));
                visit(seen - stride, cell - uint32_t(stride));
            }
        }
        return best;
    }
};
