// Reads the words of the command line, each with its range, and has the text of the usage.
#include "options.hpp"

#include <charconv>
#include <cstring>
#include <stdexcept>
#include <string>
#include <string_view>

namespace cache {

namespace {

struct word {
    std::string_view name;
    std::uint64_t options::*number;
    std::uint64_t least, most;
};

constexpr std::uint64_t gigabyte = std::uint64_t(1) << 30;

constexpr word words_known[] = {
    {"--port", &options::port, 0, 65535},
    {"--threads", &options::threads, 1, 64},
    {"--memory", &options::memory, 1 << 10, 1024 * gigabyte},
    {"--request", &options::request, 64, gigabyte},
    {"--reply", &options::reply, 64, 4 * gigabyte},
    {"--connections", &options::connections, 1, 1000000},
    {"--sweep", &options::sweep, 1, 3600000},
    {"--hash-bits", &options::hash_bits, 0, 63},
};

// A number of digits, which may end with a k, an m or a g.
bool is_number(std::string_view text, std::uint64_t &number)
{
    constexpr std::string_view units = "kmg";
    const std::size_t unit = text.empty() ? units.npos : units.find(text.back());
    text.remove_suffix(unit != units.npos);
    const auto read = std::from_chars(text.data(), text.data() + text.size(), number);
    const unsigned shift = unit == units.npos ? 0 : 10 * (unsigned(unit) + 1);
    if (text.empty() || read.ec != std::errc() || read.ptr != text.data() + text.size())
        return false;
    const std::uint64_t given = number;
    number <<= shift;
    return number >> shift == given;
}

const word &known(std::string_view name)
{
    for (const word &one : words_known)
        if (one.name == name)
            return one;
    throw std::invalid_argument(std::string(name) + ": no such option");
}

} // namespace

const char *const usage =
    "usage: cache_server [OPTION NUMBER]..\n"
    "A cache that speaks the Redis protocol (RESP2) on 127.0.0.1, until SIGTERM or SIGINT.\n"
    "  --port N         0 takes a free one; 6379\n"
    "  --threads N      that serve connections, 1 to 64; 4\n"
    "  --memory N       bytes that all items may take; 256m\n"
    "  --request N      bytes that one request may have; 1m\n"
    "  --reply N        bytes that a reply to MGET may have; 64m\n"
    "  --connections N  at a time; 10000\n"
    "  --sweep N        milliseconds between two walks for expired items; 1000\n"
    "  --hash-bits N    0 to 63: fewer make hashes equal, for tests; 63\n"
    "A number may end with k, m or g, for 2^10, 2^20 or 2^30.\n";

options options_of(int count, char **words)
{
    options made;
    for (int i = 1; i < count; i += 2) {
        const word &one = known(words[i]);
        std::uint64_t number = 0;
        if (i + 1 == count || !is_number(words[i + 1], number) || number < one.least ||
            number > one.most)
            throw std::invalid_argument(std::string(one.name) + ": not a number from " +
                                        std::to_string(one.least) + " to " +
                                        std::to_string(one.most));
        made.*one.number = number;
    }
    return made;
}

} // namespace cache
