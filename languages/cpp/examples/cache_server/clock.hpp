// The time that items and connections go by.
#pragma once

#include <chrono>
#include <cstdint>

namespace cache {

// Of the monotonic clock.
using milliseconds = std::int64_t;

inline milliseconds time_now()
{
    using namespace std::chrono;
    return duration_cast<std::chrono::milliseconds>(steady_clock::now().time_since_epoch()).count();
}

} // namespace cache
