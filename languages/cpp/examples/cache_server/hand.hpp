// Goes round over the hashes of a map, some at a time, as the hand of a clock does.
#pragma once

#include "samvolip_map.h"

#include <cstdint>
#include <memory>

namespace cache {

class hand {
public:
    explicit hand(samvolip_map *over) noexcept : map_(over) {}

    // Writes the next entries and answers how many they are: fewer than there is room for, or none,
    // at the end of a round. The keys count: what their numbers stand for may be gone.
    int next(samvolip_entry *to, int room) noexcept;

    // Lets go of the tables in which the round began, where the map has others since.
    void rest() noexcept;

private:
    struct ends {
        void operator()(samvolip_map_walk *walk) const noexcept { samvolip_map_walk_end(walk); }
    };
    std::uint64_t renewals() const noexcept;

    samvolip_map *const map_;
    std::unique_ptr<samvolip_map_walk, ends> round_;
    std::uint64_t begun_ = 0; // how many renewals there were before
};

} // namespace cache
