// SipHash-1-3 (Aumasson and Bernstein): a hash of bytes by a secret, so that nobody who doesn't
// know it can choose keys of one hash.
#pragma once

#include <cstdint>
#include <string_view>

namespace cache {

struct secret {
    std::uint64_t first, second;

    // A random one, from the system.
    static secret draw();
};

std::uint64_t hash_of(const secret &by, std::string_view bytes) noexcept;

} // namespace cache
