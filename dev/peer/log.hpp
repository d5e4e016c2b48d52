// The log of a run as docs/FORMATS.md has it, by which not only the replies but each cell of each path is compared.
#pragma once

#include "history.hpp"
#include "site.hpp"

class LogWriter {
    static constexpr uint32_t SLOTS = 4;    // of each planner, as the product has by default

    const History& history_;
    const Site& site_;
    Output& output_;

public:
    LogWriter(const History& history, const Site& site, Output& output)
        : history_(history), site_(site), output_(output) {}

    void write() {
        output_.line("wlog 2");
        output_.piece("start 0 slots");
        for (size_t agent = 0; agent < site_.starts.size(); ++agent) output_.piece(" ", SLOTS);
        output_.line();
        for (const Entry& entry : history_.entries()) {
            output_.piece(entry.caller);
            write_event(entry);
            output_.piece(" =");
            write_reply(entry);
            output_.line();
        }
        output_.line("end ", uint32_t(history_.entries().size()));
    }

private:
    void write_event(const Entry& entry) {
        switch (entry.event) {
        case Event::SUBMIT: {
            const Submission& submission = history_.submission(entry.argument);
            if (submission.is_urgent) output_.piece(" urgent ", submission.client);
            else output_.piece(" submit ", submission.client);
            for (uint32_t stop = 0; stop < submission.count; ++stop) {
                output_.piece(" ", submission.stops[stop]);
                if (submission.stays[stop]) output_.piece(":", submission.stays[stop]);
            }
            return;
        }
        case Event::TOKEN: return output_.piece(" token ", entry.argument);
        case Event::TICK: return output_.piece(" tick");
        case Event::REPLACE: return output_.piece(" replace ", entry.argument, " none");
        case Event::CLOSE: return output_.piece(" close");
        }
    }

    void write_reply(const Entry& entry) {
        const uint32_t* const numbers = entry.numbers;
        switch (entry.reply) {
        case Reply::ACCEPTED: return output_.piece(" accepted ", numbers[0]);
        case Reply::TOOK:
            output_.piece(" took ", numbers[0]);
            return write_path(numbers[1], numbers[2]);
        case Reply::RESTED: return output_.piece(" rested");
        case Reply::PARKED:
            output_.piece(" parked ", site_.points[numbers[0]].name);
            return write_path(numbers[1], numbers[2]);
        case Reply::CLOCK:
            return output_.piece(" clock ", numbers[0], " picked ", numbers[1], " dropped ", numbers[2]);
        case Reply::CLOSED: return output_.piece(" closed");
        case Reply::E1: return output_.piece(" refused E1 ", history_.submission(entry.argument).stops[numbers[0]]);
        case Reply::E2: return output_.piece(" refused E2 ", history_.submission(entry.argument).stops[numbers[0]]);
        case Reply::E3: return output_.piece(" refused E3");
        case Reply::E4: return output_.piece(" refused E4 ", numbers[0]);
        case Reply::E5: return output_.piece(" refused E5 ", numbers[0]);
        case Reply::E6: return output_.piece(" refused E6");
        case Reply::E7: return output_.piece(" refused E7");
        case Reply::E8: return output_.piece(" refused E8");
        case Reply::E10: return output_.piece(" refused E10");
        }
    }

    void write_path(uint32_t begin, uint32_t count) {
        output_.piece(" path");
        const uint32_t stride = site_.grid.stride;
        for (uint32_t index = begin; index < begin + count; ++index) {
            const uint32_t place = history_.cell(index);
            output_.piece(" ", place % stride, ",", place / stride - 1);
        }
    }
};
