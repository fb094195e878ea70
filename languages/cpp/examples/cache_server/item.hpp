// A key and its value, in one block of memory: what the map has at the key's hash.
//
// An item doesn't change, but for the time of its last use; a write puts another one in its place.
// Keys of one hash are a list, whose first item is the object of the map and owns the others.
#pragma once

#include "clock.hpp"

#include <atomic>
#include <cstddef>
#include <cstdint>
#include <memory>
#include <string_view>

namespace cache {

// When an item expires that doesn't.
constexpr milliseconds never = INT64_MAX;

class item {
public:
    // Nothing, if there is no memory.
    static std::unique_ptr<item> make(std::string_view key, std::string_view value,
                                      milliseconds expires, milliseconds now) noexcept;
    // The same key, value and times, with no list behind it.
    std::unique_ptr<item> copy() const noexcept { return make(key(), value(), expires_, used_); }

    item(const item &) = delete;
    ~item();
    static void operator delete(void *block) noexcept;

    std::string_view key() const noexcept { return {bytes(), key_size_}; }
    std::string_view value() const noexcept { return {bytes() + key_size_, value_size_}; }
    milliseconds expires() const noexcept { return expires_; }
    bool is_expired(milliseconds now) const noexcept { return expires_ <= now; }

    // The next item of the same hash, if there is one.
    const item *next() const noexcept { return next_.get(); }
    void set_next(std::unique_ptr<item> next) noexcept { next_ = std::move(next); }

    // For how many milliseconds it hasn't been used: up to 24 days, since 32 bits of the time are
    // kept, and less than 0 if another thread's clock is ahead. A use within the same millisecond
    // writes nothing, so threads that read one item seldom take its line from each other.
    std::int32_t age(milliseconds now) const noexcept
    {
        return std::int32_t(std::uint32_t(now) - used_.load(std::memory_order_relaxed));
    }
    void use(milliseconds now) const noexcept
    {
        if (age(now) != 0)
            used_.store(std::uint32_t(now), std::memory_order_relaxed);
    }

    // How much memory it takes, with what malloc adds.
    std::int64_t size() const noexcept { return size_of(key_size_, value_size_); }
    static std::int64_t size_of(std::size_t key_size, std::size_t value_size) noexcept
    {
        return std::int64_t((sizeof(item) + key_size + value_size + 8 + 15) / 16 * 16);
    }

private:
    item(std::string_view key, std::string_view value, milliseconds expires,
         milliseconds now) noexcept;
    const char *bytes() const noexcept { return reinterpret_cast<const char *>(this + 1); }

    std::unique_ptr<item> next_;
    const milliseconds expires_;
    mutable std::atomic<std::uint32_t> used_;
    const std::uint32_t key_size_, value_size_;
    // the bytes of the key and those of the value follow
};

} // namespace cache
