// The parser of requests. It goes on where it stopped, when more bytes have come.
#include "requests.hpp"

#include <algorithm>
#include <charconv>

namespace cache {

namespace {

constexpr std::size_t longest_number = 32;      // of a line with a number, with its end
constexpr std::size_t longest_line = 64 << 10;  // of a plain line
constexpr std::size_t smallest_word = 6;        // $0, and two ends of lines

} // namespace

void request_parser::begin() noexcept
{
    at_ = left_ = 0;
    is_counted_ = is_in_word_ = false;
    slices_.clear();
    words_.clear();
}

request_parser::state request_parser::parse(std::string_view come)
{
    if (come.empty())
        return state::partial;
    if (come.front() != '*')
        return parse_line(come);
    if (!is_counted_)
        if (const state told = parse_count(come); told != state::whole)
            return told;
    while (left_ > 0)
        if (const state told = parse_word(come); told != state::whole)
            return told;
    return whole(come);
}

// A plain line: words between blanks.
request_parser::state request_parser::parse_line(std::string_view come)
{
    const std::size_t most = std::min(most_, longest_line);
    const std::size_t end = come.find('\n', at_);
    at_ = end == come.npos ? come.size() : end + 1;
    if (at_ > most)
        return broken("Protocol error: too big inline request");
    if (end == come.npos)
        return state::partial;

    const std::string_view line = come.substr(0, end - (end > 0 && come[end - 1] == '\r'));
    for (std::size_t to = 0;;) {
        const std::size_t from = line.find_first_not_of(" \t", to);
        if (from == line.npos)
            return whole(come);
        to = std::min(line.find_first_of(" \t", from), line.size());
        slices_.push_back({from, to - from});
    }
}

request_parser::state request_parser::parse_count(std::string_view come)
{
    const state told = number_line(come, '*', most_ / smallest_word,
                                   "Protocol error: invalid multibulk length", left_);
    is_counted_ = told == state::whole;
    return told;
}

request_parser::state request_parser::parse_word(std::string_view come)
{
    if (!is_in_word_) {
        std::size_t size = 0;
        const state told =
            number_line(come, '$', most_, "Protocol error: invalid bulk length", size);
        if (told != state::whole)
            return told;
        if (at_ + size + 2 > most_)
            return broken("Protocol error: the request is too long");
        is_in_word_ = true;
        slices_.push_back({at_, size});
    }
    const slice &word = slices_.back();
    const std::string_view end = come.substr(std::min(word.begin + word.size, come.size()), 2);
    if (end != std::string_view("\r\n").substr(0, end.size()))
        return broken("Protocol error: a word isn't as long as was said");
    if (end.size() < 2)
        return state::partial;
    at_ = word.begin + word.size + 2;
    is_in_word_ = false;
    left_--;
    return state::whole;
}

// A mark, a number and the end of a line.
request_parser::state request_parser::number_line(std::string_view come, char mark,
                                                  std::size_t most, const char *fault,
                                                  std::size_t &number)
{
    const std::string_view line = come.substr(at_, longest_number);
    if (!line.empty() && line.front() != mark)
        return broken("Protocol error: expected '$'");
    const std::size_t end = line.find("\r\n");
    if (end == line.npos)
        return line.size() == longest_number ? broken(fault) : state::partial;
    const auto read = std::from_chars(line.data() + 1, line.data() + end, number);
    if (read.ec != std::errc() || read.ptr != line.data() + end || number > most)
        return broken(fault);
    at_ += end + 2;
    return state::whole;
}

request_parser::state request_parser::broken(const char *fault) noexcept
{
    fault_ = fault;
    return state::broken;
}

request_parser::state request_parser::whole(std::string_view come)
{
    for (const slice &one : slices_)
        words_.push_back(come.substr(one.begin, one.size));
    return state::whole;
}

} // namespace cache
