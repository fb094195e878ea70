// A round of the hand is a walk of the map. A new one begins after its end, and after a renewal.
#include "hand.hpp"

namespace cache {

int hand::next(samvolip_entry *to, int room) noexcept
{
    if (!round_) {
        samvolip_map_walk *begun = nullptr;
        begun_ = renewals();
        if (samvolip_map_walk_begin(map_, &begun) < 0)
            return 0;
        round_.reset(begun);
    }
    const int count = samvolip_map_walk_some(round_.get(), to, room);
    if (count < room)
        round_.reset();
    return count < 0 ? 0 : count;
}

void hand::rest() noexcept
{
    if (round_ && renewals() != begun_)
        round_.reset();
}

std::uint64_t hand::renewals() const noexcept
{
    samvolip_map_figures told{};
    return samvolip_map_look(map_, &told) < 0 ? 0 : told.renewals;
}

} // namespace cache
