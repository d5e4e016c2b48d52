// Words, small numbers and names, read from a line and written to one, as docs/FORMATS.md has them.
#pragma once

#include <cstring>

#include "common.hpp"

struct Text {
    const char* begin;
    const char* end;
    size_t size() const { return size_t(end - begin); }
};

template <size_t N>
inline bool is(Text text, const char (&wanted)[N]) {
    return text.size() == N - 1 && memcmp(text.begin, wanted, N - 1) == 0;
}

// Takes the first word off the text; an empty one where there is none.
inline Text next_word(Text& text) {
    const char* place = text.begin;
    while (place != text.end && (*place == ' ' || *place == '\t')) ++place;
    const char* begin = place;
    while (place != text.end && *place != ' ' && *place != '\t') ++place;
    text.begin = place;
    return {begin, place};
}

inline bool read_number(Text text, uint32_t& number) {
    if (text.size() < 1 || text.size() > 9) return false;
    uint32_t value = 0;
    for (const char* place = text.begin; place != text.end; ++place) {
        const unsigned digit = unsigned(*place) - '0';
        if (digit > 9) return false;
        value = value * 10 + digit;
    }
    number = value;
    return true;
}

// Two words of the machine, padded with zeros, so that names are compared and hashed without a loop.
struct Name {
    uint64_t first = 0, second = 0;
    bool operator==(const Name& other) const { return first == other.first && second == other.second; }
    size_t hash() const {
        return size_t(((first * 0x9E3779B97F4A7C15ull) ^ (second * 0xC2B2AE3D27D4EB4Full)) >> 29);
    }
    const char* bytes() const { return reinterpret_cast<const char*>(this); }
};
static_assert(sizeof(Name) == 16);

inline bool is_of_names(char byte) {
    return (byte >= 'A' && byte <= 'Z') || (byte >= 'a' && byte <= 'z') || (byte >= '0' && byte <= '9') ||
           byte == '_' || byte == '-';
}

inline bool read_name(Text text, Name& name) {
    if (text.size() < 1 || text.size() > sizeof(Name)) return false;
    for (const char* place = text.begin; place != text.end; ++place)
        if (!is_of_names(*place)) return false;
    char bytes[sizeof(Name)] = {};
    memcpy(bytes, text.begin, text.size());
    memcpy(&name, bytes, sizeof(Name));
    return true;
}

// Each writes one piece of a line and answers where it ends.
template <size_t N>
inline char* put(char* place, const char (&piece)[N]) {
    memcpy(place, piece, N - 1);
    return place + (N - 1);
}

inline char* put(char* place, uint32_t number) {
    if (number < 10) {
        *place = char('0' + number);
        return place + 1;
    }
    char digits[10];
    int count = 0;
    do digits[count++] = char('0' + number % 10), number /= 10;
    while (number);
    while (count) *place++ = digits[--count];
    return place;
}

inline char* put(char* place, const Name& name) {
    const size_t size = strnlen(name.bytes(), sizeof(Name));
    memcpy(place, name.bytes(), size);
    return place + size;
}
