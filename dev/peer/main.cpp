// The peer: a plain, unproved program that replays a warehouse script and prints byte for byte what the product's
// `replay` prints, without its options; with the word `log`, what `replay --tail log` prints, with the word `homes` what
// `replay --ends homes` does, and with the words `slack N` what `replay --slack N` does. With the word `counts` standard
// error tells how many arrivals the searches over intervals expanded, and how many one of them at most. It is a yardstick
// for the product's speed and an oracle for tests/peer.py.
//
// With the word `stays` it is a prototype of docs/STAYS.md: orders have stays at stops and may be urgent, and replies tell
// each cell of a path.
//
//   g++ -O2 -march=x86-64-v2 -std=c++17 -Wall -Wextra -o peer dev/peer/main.cpp
//   ./peer < examples/deliveries
//
// It is one unit, so that the compiler sees all of it at once.
//
// It is written anew from the rules and methods, but of several least paths it must find the one that the product
// finds, as later paths go around it. So these are of the method:
//
// - Moves come in this order: stay, left, right, up, down. Left of the map and above it is nothing; right of it and
//   below it is a border of blocked places, which have an estimate as any blocked place has.
// - The estimate at a place is its distance to the next stop and the distances between the stops behind that. Of each
//   leg all that is more than 16 steps farther than where the leg starts, or is blocked, counts as 17 steps farther,
//   however far the field is filled. To park it is the distance to the nearest free point, and all that is farther than
//   where the agent starts counts as one step farther.
// - No path is sought where more is estimated at the start than any least path has: the horizon, from which on nobody
//   else moves, and as many steps a leg as there are passable places.
// - Before any field is filled that is not yet filled as far: where the stops are 128 or more apart by columns and rows,
//   a straight pass by that estimate, which is given up where more places lead nowhere than the way has steps. It finds
//   what the next would find.
// - No path is shorter than its legs by their estimates, where it comes to each stop but the last at the first time from then on
//   at which nobody else is there (under the rule, nor was just before; where there is none it is not waited for); nor ends before
//   one may rest at the last stop (under the rule, one later).
// - Straight pass: unless no path is so short, a walk of just as many steps as are estimated at
//   the start is sought depth first, by those moves alone by which the estimate falls, of the moves the last one first. It
//   is given up where more than 32 times as many places as it has steps lead nowhere.
// - Where that finds none, the way to each stop is walked down its field from the stop before, always to the first place
//   beside that is nearer and not closed: at which not somebody else is at each time from which on the agent can be there, as
//   it takes a step for each column and row from where it starts. Where on the way to some stop none is left, all is sought
//   anew as from the start, by the rules above and below, on the map without the closed places at which others end, and
//   with the field over that map of each such stop.
// - Over intervals: an arrival is a place, a number of stops behind, a time, and until when nobody else comes there, or
//   the last time at which anything is sought. Of those that wait one of the least bound comes first, by time and
//   estimate; all bounds up to the least that a path may have (as above, and one more
//   than the straight pass looked for, unless it was given up), and by the slack beyond it, are equal. Among equal ones that with the least estimate comes first, then the
//   earliest, and then the last put in.
// - An arrival meets the next ones in the order of moves but the first: to each place beside, the first arrival in each
//   of its intervals, in the order of their times. Where an interval is expanded from a time on, an earlier arrival in
//   it meets only what it leads to by leaving before.
// - An arrival at its next stop, at which it has to stay, first meets the end of the stay there, if nobody comes before.
// - An arrival that is met is skipped where the last one met in its interval was no later.
// - The nearest task is the one with the least number among those whose first stop is nearest.
#include "warehouse.hpp"

constexpr size_t LONGEST_LINE = 256;

static bool is_blank(Text text) { return next_word(text).size() == 0; }

static bool read_one_number(Text text, uint32_t& number) {
    return read_number(next_word(text), number) && is_blank(text);
}

// Takes `:TICKS` off a stop, where it is there.
static bool read_stay(Text& word, uint32_t& stay) {
    const char* const colon = static_cast<const char*>(memchr(word.begin, ':', word.size()));
    if (!colon) return true;
    if (!read_number({colon + 1, word.end}, stay) || stay > MOST_STAY) return false;
    word.end = colon;
    return true;
}

static bool read_submission(Text text, Submission& submission, bool stays) {
    if (!read_name(next_word(text), submission.client)) return false;
    for (Text word = next_word(text); word.size(); word = next_word(text)) {
        const uint32_t stop = submission.count++;
        if (stop == MOST_STOPS || (stays && !read_stay(word, submission.stays[stop]))) return false;
        if (!read_name(word, submission.stops[stop])) return false;
    }
    return submission.count >= 2;
}

// Runs a line; answers whether it is a command, or one to skip.
static bool run_line(Warehouse& warehouse, Text line, bool stays) {
    uint32_t agent;
    // nearly all lines of a script are of this exact form
    if (LIKELY(line.size() > 6 && memcmp(line.begin, "token ", 6) == 0 &&
               read_number({line.begin + 6, line.end}, agent))) {
        warehouse.token(agent);
        return true;
    }
    const Text verb = next_word(line);
    if (verb.size() == 0 || *verb.begin == '#') return true;
    if (is(verb, "tick")) {
        if (!is_blank(line)) return false;
        warehouse.tick();
    } else if (is(verb, "submit") || (stays && is(verb, "urgent"))) {
        Submission submission{};
        if (!read_submission(line, submission, stays)) return false;
        submission.is_urgent = is(verb, "urgent");
        warehouse.submit(submission);
    } else if (is(verb, "token")) {
        if (!read_one_number(line, agent)) return false;
        warehouse.token(agent);
    } else if (is(verb, "replace")) {
        if (!read_one_number(line, agent)) return false;
        warehouse.replace(agent);
    } else if (is(verb, "close")) {
        if (!is_blank(line)) return false;
        warehouse.close();
    } else {
        return false;
    }
    return true;
}

static bool is_given(int count, char** words, const char* word) {
    return std::any_of(words + 1, words + count, [&](const char* other) { return strcmp(other, word) == 0; });
}

// The number behind a word; 0 where the word is not given.
static uint32_t number_given(int count, char** words, const char* word) {
    const auto found = std::find_if(words + 1, words + count, [&](const char* other) { return strcmp(other, word) == 0; });
    uint32_t number = 0;
    if (found + 1 < words + count && !read_number({found[1], found[1] + strlen(found[1])}, number)) die("no number");
    return number;
}

int main(int count, char** words) {
    static Output output;
    static Input input(output);
    Site site(read_map(input));
    read_points(input, site);
    const bool stays = is_given(count, words, "stays");
    Warehouse warehouse(std::move(site), output, is_given(count, words, "homes"), stays, number_given(count, words, "slack"));
    for (Text line; input.line(line);) {
        if (UNLIKELY(line.size() > LONGEST_LINE))
            output.line("refused C2");
        else if (UNLIKELY(!run_line(warehouse, line, stays)))
            output.line("refused C1");
    }
    if (is_given(count, words, "log")) {
        output.line("%%");
        warehouse.write_log();
    }
    output.flush();
    if (is_given(count, words, "counts")) warehouse.tell_counts();
    return 0;
}
