// Replies of RESP2, one behind the other, until they are sent.
#pragma once

#include <charconv>
#include <cstddef>
#include <cstdint>
#include <string>
#include <string_view>

namespace cache {

class replies {
public:
    void status(std::string_view text) { line('+', text); }
    // The text begins with a word in capitals, and has no end of a line.
    void error(std::string_view text) { line('-', text); }
    void number(std::int64_t number) { number_line(':', number); }
    void nothing() { text_ += "$-1\r\n"; }
    void text(std::string_view bytes)
    {
        number_line('$', std::int64_t(bytes.size()));
        text_ += bytes;
        text_ += "\r\n";
    }
    // So many replies have to follow, as its elements.
    void array(std::size_t size) { number_line('*', std::int64_t(size)); }

    // Where the next reply begins. What was written since can be taken back.
    std::size_t mark() const noexcept { return text_.size(); }
    void take_back(std::size_t mark) { text_.resize(mark); }

    std::string_view unsent() const noexcept { return std::string_view(text_).substr(sent_); }
    // What is sent goes when it is the larger part; and when it is all, memory for many bytes, too.
    void sent(std::size_t size)
    {
        sent_ += size;
        if (sent_ < text_.size() - sent_)
            return;
        text_.erase(0, sent_);
        sent_ = 0;
        if (text_.empty() && text_.capacity() > most_kept)
            text_ = std::string();
    }

private:
    static constexpr std::size_t most_kept = 256 << 10;

    void line(char mark, std::string_view text)
    {
        text_ += mark;
        text_ += text;
        text_ += "\r\n";
    }
    void number_line(char mark, std::int64_t number)
    {
        char digits[24];
        const char *end = std::to_chars(digits, digits + sizeof digits, number).ptr;
        line(mark, {digits, std::size_t(end - digits)});
    }

    std::string text_;
    std::size_t sent_ = 0;
};

} // namespace cache
