// What the threads of the server count.
#pragma once

#include <atomic>
#include <cstdint>

namespace cache {

// A number that one thread changes, and all may read. What a client was answered is counted before:
// an add is a release.
class counter {
public:
    void add(std::int64_t more) noexcept
    {
        number_.store(number_.load(std::memory_order_relaxed) + more, std::memory_order_release);
    }
    std::int64_t get() const noexcept { return number_.load(std::memory_order_acquire); }

private:
    std::atomic<std::int64_t> number_{0};
};

// Those of one thread, on lines of their own. Some of them fall below zero, since a thread may remove
// what another one put; their sum doesn't.
struct alignas(64) figures {
    counter keys, bytes, expiring; // in the store: items, their memory, how many of them expire
    counter hits, misses;          // keys that were asked for
    counter evicted, expired;      // items that were removed for want of memory, and by their time
    counter commands;
    counter accepted, closed; // connections
};

} // namespace cache
