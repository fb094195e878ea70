// The command line.
#pragma once

#include <cstdint>

namespace cache {

struct options {
    std::uint64_t port = 6379;
    std::uint64_t threads = 4;
    std::uint64_t memory = 256 << 20;  // bytes of all items together
    std::uint64_t request = 1 << 20;   // bytes of one request
    std::uint64_t reply = 64 << 20;    // bytes of a reply to MGET
    std::uint64_t connections = 10000; // at a time
    std::uint64_t sweep = 1000;        // milliseconds between two walks for expired items
    std::uint64_t hash_bits = 63;      // fewer make hashes equal, for tests
};

// What the words say. A fault of theirs is thrown, as a std::invalid_argument.
options options_of(int count, char **words);

// The help, with ranges and defaults.
extern const char *const usage;

} // namespace cache
