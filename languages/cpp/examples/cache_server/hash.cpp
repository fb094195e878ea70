// SipHash-1-3 itself, and a secret from the system's random bytes.
#include "hash.hpp"

#include <cerrno>
#include <cstddef>
#include <cstring>
#include <sys/random.h>
#include <system_error>

namespace cache {

namespace {

// The words of SipHash, in its authors' names.
struct state {
    std::uint64_t v0, v1, v2, v3;

    static std::uint64_t turned(std::uint64_t word, int by) noexcept
    {
        return word << by | word >> (64 - by);
    }
    void round() noexcept
    {
        v0 += v1, v2 += v3;
        v1 = turned(v1, 13) ^ v0, v3 = turned(v3, 16) ^ v2;
        v0 = turned(v0, 32);
        v2 += v1, v0 += v3;
        v1 = turned(v1, 17) ^ v2, v3 = turned(v3, 21) ^ v0;
        v2 = turned(v2, 32);
    }
    void take(std::uint64_t word) noexcept
    {
        v3 ^= word;
        round();
        v0 ^= word;
    }
};

// Up to eight bytes as a number, the first byte lowest.
std::uint64_t word_at(const char *from, std::size_t size) noexcept
{
    std::uint64_t word = 0;
    std::memcpy(&word, from, size);
    return word;
}

} // namespace

secret secret::draw()
{
    secret drawn{};
    if (::getrandom(&drawn, sizeof drawn, 0) != sizeof drawn)
        throw std::system_error(errno, std::generic_category(), "getrandom");
    return drawn;
}

std::uint64_t hash_of(const secret &by, std::string_view bytes) noexcept
{
    state at{by.first ^ 0x736f6d6570736575, by.second ^ 0x646f72616e646f6d,
             by.first ^ 0x6c7967656e657261, by.second ^ 0x7465646279746573};
    const std::size_t whole = bytes.size() / 8 * 8;
    for (std::size_t i = 0; i < whole; i += 8)
        at.take(word_at(bytes.data() + i, 8));
    const std::uint64_t last = word_at(bytes.data() + whole, bytes.size() - whole);
    at.take(last | std::uint64_t(bytes.size()) << 56);
    at.v2 ^= 0xff;
    for (int i = 0; i < 3; i++)
        at.round();
    return at.v0 ^ at.v1 ^ at.v2 ^ at.v3;
}

} // namespace cache
