// Standard input as lines, standard output as replies. Replies are gathered, and written before any read that may wait,
// so that a client that waits for its replies before it asks again gets them.
#pragma once

#include <unistd.h>

#include <cerrno>
#include <string>

#include "text.hpp"

class Output {
    static constexpr size_t LONGEST_REPLY = 128;
    char buffer_[65536];
    size_t length_ = 0;

public:
    void flush() {
        for (size_t written = 0; written < length_;) {
            const ssize_t count = write(1, buffer_ + written, length_ - written);
            if (count < 0) {
                if (errno == EINTR) continue;
                die("write");
            }
            written += size_t(count);
        }
        length_ = 0;
    }

    template <typename... Pieces>
    void line(const Pieces&... pieces) {
        piece(pieces..., "\n");
    }

    // A part of a line; no longer than a reply may be.
    template <typename... Pieces>
    void piece(const Pieces&... pieces) {
        if (UNLIKELY(length_ > sizeof buffer_ - LONGEST_REPLY)) flush();
        char* place = buffer_ + length_;
        ((place = put(place, pieces)), ...);
        length_ = size_t(place - buffer_);
    }
};

class Input {
    char buffer_[65536];
    size_t begin_ = 0, end_ = 0;
    std::string carried_;
    Output& output_;

public:
    explicit Input(Output& output) : output_(output) {}

    // The next line, without its end; it stands until the next call.
    bool line(Text& text) {
        const char* begin = buffer_ + begin_;
        if (const char* end = line_end(begin_)) {
            begin_ = size_t(end - buffer_) + 1;
            text = trimmed(begin, end);
            return true;
        }
        return line_over_reads(text);
    }

private:
    const char* line_end(size_t from) const {
        return static_cast<const char*>(memchr(buffer_ + from, '\n', end_ - from));
    }

    static Text trimmed(const char* begin, const char* end) {
        if (begin != end && end[-1] == '\r') --end;
        return {begin, end};
    }

    bool fill() {
        output_.flush();
        for (;;) {
            const ssize_t count = read(0, buffer_, sizeof buffer_);
            if (count < 0) {
                if (errno == EINTR) continue;
                die("read");
            }
            begin_ = 0;
            end_ = size_t(count);
            return count > 0;
        }
    }

    bool line_over_reads(Text& text) {
        carried_.assign(buffer_ + begin_, end_ - begin_);
        while (fill()) {
            const char* end = line_end(0);
            const size_t count = end ? size_t(end - buffer_) : end_;
            carried_.append(buffer_, count);
            begin_ = count + (end ? 1 : 0);
            if (end) {
                text = trimmed(carried_.data(), carried_.data() + carried_.size());
                return true;
            }
        }
        if (carried_.empty()) return false;
        text = trimmed(carried_.data(), carried_.data() + carried_.size());
        begin_ = end_ = 0;
        return true;
    }
};
