// The site: a map and its points, read from the first two sections of the input. They are trusted to be of the formats:
// of their faults only those are told that would break what follows, and not with the product's codes.
#pragma once

#include <vector>

#include "streams.hpp"

// Values of a place in a distance field that are no distance; up to UNSEEN it is passable. A field starts as a copy of
// the map's places, so a place that is passable must not be taken for one that was reached; a sum of two has room.
constexpr uint32_t UNSEEN = 0x3FFFFFFD;
constexpr uint32_t BLOCKED = 0x3FFFFFFE;
constexpr uint32_t EDGE = 0x3FFFFFFF;    // blocked, as all of the border

// A blocked border stands around the rows, so that a neighbour's place needs no test for the map's edge. One column is
// enough: left of a row's first cell is the border behind the row above.
struct Grid {
    uint32_t width = 0, height = 0, stride = 0, passable = 0;
    std::vector<uint32_t> places;    // UNSEEN, BLOCKED or EDGE
    uint32_t place(uint32_t x, uint32_t y) const { return (y + 1) * stride + x; }
    size_t size() const { return places.size(); }
    // How many columns and rows two places are apart.
    uint32_t apart(uint32_t one, uint32_t other) const {
        const auto between = [](uint32_t a, uint32_t b) { return a < b ? b - a : a - b; };
        return between(one % stride, other % stride) + between(one / stride, other / stride);
    }
};

struct Point {
    Name name;
    uint32_t cell;
    bool is_station;
};

class Site {
    static constexpr size_t TABLE_SIZE = 4 * MOST_POINTS;
    std::vector<uint32_t> table_ = std::vector<uint32_t>(TABLE_SIZE, NONE);
    std::vector<bool> has_point_;    // by place

    size_t slot(const Name& name) const {
        for (size_t slot = name.hash() % TABLE_SIZE;; slot = (slot + 1) % TABLE_SIZE)
            if (table_[slot] == NONE || points[table_[slot]].name == name) return slot;
    }

public:
    Grid grid;
    std::vector<Point> points;
    std::vector<uint32_t> starts;
    bool nofollow = false;

    explicit Site(Grid&& map) : has_point_(map.size()), grid(std::move(map)) {}

    uint32_t find(const Name& name) const { return table_[slot(name)]; }

    void add(const Point& point) {
        if (points.size() >= MOST_POINTS || find(point.name) != NONE || has_point_[point.cell]) die("points");
        has_point_[point.cell] = true;
        table_[slot(point.name)] = uint32_t(points.size());
        points.push_back(point);
    }
};

inline bool is_mark(Text line) { return is(line, "%%"); }

inline void read_head(Input& input, Grid& grid) {
    Text line;
    if (!input.line(line)) die("map");
    for (int side = 0; side < 2; ++side) {
        if (!input.line(line)) die("map");
        const Text word = next_word(line);
        uint32_t value;
        if (!read_number(next_word(line), value) || value == 0 || value > 4096) die("map side");
        (is(word, "width") ? grid.width : grid.height) = value;
    }
    if (!input.line(line) || !grid.width || !grid.height) die("map");
}

inline Grid read_map(Input& input) {
    Grid grid;
    read_head(input, grid);
    grid.stride = grid.width + 1;
    grid.places.assign(size_t(grid.stride) * (grid.height + 2), EDGE);
    Text line;
    for (uint32_t y = 0; y < grid.height; ++y) {
        if (!input.line(line) || line.size() != grid.width) die("map row");
        for (uint32_t x = 0; x < grid.width; ++x) {
            const char byte = line.begin[x];
            const bool passable = byte == '.' || byte == 'G' || byte == 'S';
            grid.places[grid.place(x, y)] = passable ? UNSEEN : BLOCKED;
            grid.passable += passable;
        }
    }
    while (input.line(line) && !is_mark(line)) {
    }
    return grid;
}

inline void read_agent(Text line, Site& site) {
    Name name;
    if (!read_name(next_word(line), name) || site.starts.size() == MOST_AGENTS) die("agent");
    const uint32_t point = site.find(name);
    if (point == NONE) die("agent");
    site.starts.push_back(site.points[point].cell);
}

inline void read_point(Text line, bool is_station, Site& site) {
    Name name;
    uint32_t x, y;
    if (!read_name(next_word(line), name) || !read_number(next_word(line), x) || !read_number(next_word(line), y) ||
        x >= site.grid.width || y >= site.grid.height)
        die("point");
    const uint32_t cell = site.grid.place(x, y);
    if (site.grid.places[cell] != UNSEEN) die("point");
    site.add({name, cell, is_station});
}

inline void read_points(Input& input, Site& site) {
    Text line;
    while (input.line(line) && !is_mark(line)) {
        const Text word = next_word(line);
        if (word.size() == 0 || *word.begin == '#') continue;
        if (is(word, "rule"))
            site.nofollow = true;
        else if (is(word, "agent"))
            read_agent(line, site);
        else
            read_point(line, is(word, "station"), site);
    }
    if (site.starts.empty()) die("no agent");
}
