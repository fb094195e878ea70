// The cache itself: items by their keys, in a map that all threads call.
//
// The map has the items of one hash as one object: an item, or a list of them where several keys
// have one hash. So a read compares the whole key, and a write puts a new list in place of the one
// it read, by a compare and exchange of the object, and begins again where another write came first.
#pragma once

#include "figures.hpp"
#include "hand.hpp"
#include "hash.hpp"
#include "item.hpp"
#include "options.hpp"
#include "samvolip_objects.hpp"

#include <atomic>
#include <cstdint>
#include <string_view>
#include <vector>

namespace cache {

// What all threads share.
class store {
public:
    // For so many threads.
    store(const options &how, std::size_t threads);

    std::uint64_t hash_of(std::string_view key) const noexcept
    {
        return cache::hash_of(secret_, key) & mask_;
    }
    std::int64_t sum(counter figures::*of) const noexcept;

    samvolip::object_map<item> items;
    std::vector<figures> counted;       // by each thread
    const std::int64_t most_bytes;      // that all items may take
    const std::int64_t most_untold;     // how many of them each thread keeps to itself
    const std::int64_t bound;           // for the others, beside a thread's own
    std::atomic<std::int64_t> told{0};  // how many they are

private:
    const secret secret_;
    const std::uint64_t mask_;
};

enum class outcome {
    done,
    unmet,        // the key isn't as it was asked to be, and stays so
    not_a_number, // the value at the key
    overflow,     // of that number
    no_memory     // of the system, or for items
};

// How much there is of a list of items.
struct extent {
    std::int64_t keys = 0, bytes = 0, expiring = 0;
};

// What a write asks of a key.
enum class condition { none, absent, present };

// One thread's way to the store. Each call is one step on its key.
class access {
public:
    access(store &of, figures &mine) : of_(of), mine_(mine), hand_(of.items.native_handle()) {}

    // What the time is, until it is told again.
    void set_time(milliseconds now) noexcept { now_ = now; }
    milliseconds now() const noexcept { return now_; }
    store &all() const noexcept { return of_; }
    figures &counted() const noexcept { return mine_; }

    // Shows the value at a key to a function, and answers whether there is one.
    template <class Function> bool read(std::string_view key, Function &&show);

    outcome set(std::string_view key, std::string_view value, milliseconds expires,
                condition asked);
    outcome erase(std::string_view key);
    // Adds one to the number at a key, or to 0, and tells the sum.
    outcome increment(std::string_view key, std::int64_t &sum);

    // Removes all items that have expired.
    void sweep();
    // Now and then.
    void rest() noexcept { hand_.rest(); }

private:
    template <class Decide> outcome change(std::string_view key, Decide &&decide);
    const item *find(const item *first, std::string_view key) const noexcept;
    bool take_others(const item *first, std::string_view key,
                     std::unique_ptr<item> &made) const noexcept;
    std::int64_t expired_of(const item *first) const noexcept;
    void drop_expired(std::string_view key);
    void drop_expired_at(std::uint64_t hash);
    bool fits(std::int64_t more) const noexcept;
    bool make_room(std::int64_t more);
    bool evict();
    void count(const extent &before, const extent &after);
    void collect();

    store &of_;
    figures &mine_;
    hand hand_;
    milliseconds now_ = 0;
    std::int64_t untold_ = 0;  // bytes of items
    std::int64_t removed_ = 0; // bytes of items that may wait to be freed
};

template <class Function> bool access::read(std::string_view key, Function &&show)
{
    const auto pinned = of_.items.pin();
    const item *first = pinned.get(of_.hash_of(key));
    const item *there = find(first, key);
    if (there) {
        there->use(now_);
        show(there->value());
    } else if (expired_of(first) > 0) {
        drop_expired(key);
    }
    (there ? mine_.hits : mine_.misses).add(1);
    return there != nullptr;
}

} // namespace cache
