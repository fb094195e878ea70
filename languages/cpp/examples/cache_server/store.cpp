// The calls of a thread on the cache: writes of a hash's list of items, expiry, eviction, and what
// is counted.
#include "store.hpp"

#include <algorithm>
#include <charconv>
#include <cstdlib>

namespace cache {

namespace {

constexpr int sample = 8;          // so many items are compared, and the oldest is evicted
constexpr int most_failures = 64;  // in a row, of evictions
// Bytes of items that a thread doesn't tell the others of, and that it has removed and not freed.
constexpr std::int64_t most_kept = 64 << 10, most_removed = 1 << 20;

// A number as Redis takes it: digits, without a zero or a plus before them.
bool is_number(std::string_view text, std::int64_t &number) noexcept
{
    const char *end = text.data() + text.size();
    const auto read = std::from_chars(text.data(), end, number);
    if (read.ec != std::errc() || read.ptr != end)
        return false;
    const std::string_view digits = text.substr(text.front() == '-');
    return text == "0" || digits.front() != '0';
}

extent extent_of(const item *first) noexcept
{
    extent all;
    for (const item *one = first; one; one = one->next()) {
        all.keys++;
        all.bytes += one->size();
        all.expiring += one->expires() != never;
    }
    return all;
}

// Since the last use of any of them.
std::int32_t age_of(const item *first, milliseconds now) noexcept
{
    std::int32_t age = first->age(now);
    for (const item *one = first->next(); one; one = one->next())
        age = std::min(age, one->age(now));
    return age;
}

// The keys of the map are hashes by a secret already.
samvolip::options unmixed()
{
    samvolip::options how;
    how.keys = samvolip::keys::as_they_are;
    return how;
}

} // namespace

store::store(const options &how, std::size_t threads)
    : items(unmixed()), counted(threads), most_bytes(std::int64_t(how.memory)),
      most_untold(std::min(most_kept, most_bytes / 32 / std::int64_t(threads))),
      bound(most_bytes - std::int64_t(threads - 1) * most_untold),
      secret_(secret::draw()), mask_((std::uint64_t(1) << how.hash_bits) - 1)
{
}

std::int64_t store::sum(counter figures::*of) const noexcept
{
    std::int64_t sum = 0;
    for (const figures &one : counted)
        sum += (one.*of).get();
    return sum;
}

/* ---- one key */

outcome access::set(std::string_view key, std::string_view value, milliseconds expires,
                    condition asked)
{
    if (!make_room(item::size_of(key.size(), value.size())))
        return outcome::no_memory;
    return change(key, [&](const item *there, std::unique_ptr<item> &made) {
        if (asked != condition::none && (asked == condition::present) != (there != nullptr))
            return outcome::unmet;
        made = item::make(key, value, expires, now_);
        return made ? outcome::done : outcome::no_memory;
    });
}

outcome access::erase(std::string_view key)
{
    return change(key, [](const item *there, std::unique_ptr<item> &) {
        return there ? outcome::done : outcome::unmet;
    });
}

outcome access::increment(std::string_view key, std::int64_t &sum)
{
    char digits[24];
    if (!make_room(item::size_of(key.size(), sizeof digits)))
        return outcome::no_memory;
    return change(key, [&](const item *there, std::unique_ptr<item> &made) {
        const std::string_view text = there ? there->value() : "0";
        if (!is_number(text, sum))
            return outcome::not_a_number;
        if (sum == INT64_MAX)
            return outcome::overflow;
        const char *end = std::to_chars(digits, digits + sizeof digits, ++sum).ptr;
        made = item::make(key, {digits, std::size_t(end - digits)},
                          there ? there->expires() : never, now_);
        return made ? outcome::done : outcome::no_memory;
    });
}

// Asks a function what becomes of a key: it is given the item that is there, if there is one, and
// makes another, or none, and answers outcome::done; any other answer leaves the key as it is. It
// is asked again where another write of the hash came first.
template <class Decide> outcome access::change(std::string_view key, Decide &&decide)
{
    collect();
    const std::uint64_t hash = of_.hash_of(key);
    const auto pinned = of_.items.try_pin();
    if (!pinned.has_value())
        return outcome::no_memory;
    for (;;) {
        const item *first = pinned->get(hash);
        std::unique_ptr<item> made;
        const outcome decided = decide(find(first, key), made);
        if (decided != outcome::done)
            return decided;
        if (!take_others(first, key, made))
            return outcome::no_memory;
        const extent after = extent_of(made.get());
        const item *expected = first;
        const auto exchanged = of_.items.compare_exchange(hash, expected, std::move(made));
        if (!exchanged.has_value())
            return outcome::no_memory;
        if (*exchanged) {
            count(extent_of(first), after);
            mine_.expired.add(expired_of(first));
            return outcome::done;
        }
    }
}

// The item of a key in a list, unless it has expired.
const item *access::find(const item *first, std::string_view key) const noexcept
{
    while (first && first->key() != key)
        first = first->next();
    return first && !first->is_expired(now_) ? first : nullptr;
}

// Puts copies of a list's other items behind what was made for a key, but for expired ones. Answers
// whether there was memory.
bool access::take_others(const item *first, std::string_view key,
                         std::unique_ptr<item> &made) const noexcept
{
    for (; first; first = first->next()) {
        if (first->key() == key || first->is_expired(now_))
            continue;
        std::unique_ptr<item> copy = first->copy();
        if (!copy)
            return false;
        copy->set_next(std::move(made));
        made = std::move(copy);
    }
    return true;
}

/* ---- what expires */

std::int64_t access::expired_of(const item *first) const noexcept
{
    std::int64_t expired = 0;
    for (; first; first = first->next())
        expired += first->is_expired(now_);
    return expired;
}

// Removes what expired of the items that have the hash of this key, unless the key has a live item.
void access::drop_expired(std::string_view key)
{
    change(key, [](const item *there, std::unique_ptr<item> &) {
        return there ? outcome::unmet : outcome::done;
    });
}

void access::sweep()
{
    hand round(of_.items.native_handle());
    samvolip_entry some[64];
    for (int count = 64; count == 64;) {
        count = round.next(some, 64);
        for (int i = 0; i < count; i++)
            drop_expired_at(some[i].key);
    }
}

void access::drop_expired_at(std::uint64_t hash)
{
    const auto pinned = of_.items.try_pin();
    if (!pinned.has_value())
        return;
    const item *one = pinned->get(hash);
    while (one && !one->is_expired(now_))
        one = one->next();
    if (one)
        drop_expired(one->key());
}

/* ---- memory */

void access::count(const extent &before, const extent &after)
{
    removed_ += before.bytes;
    mine_.keys.add(after.keys - before.keys);
    mine_.bytes.add(after.bytes - before.bytes);
    mine_.expiring.add(after.expiring - before.expiring);
    untold_ += after.bytes - before.bytes;
    if (std::abs(untold_) >= of_.most_untold) {
        of_.told.fetch_add(untold_, std::memory_order_relaxed);
        untold_ = 0;
    }
}

// The map frees what was removed by some sixty items at a time. Large ones don't wait for so many.
void access::collect()
{
    if (removed_ < most_removed)
        return;
    (void)of_.items.collect();
    removed_ = 0;
}

bool access::fits(std::int64_t more) const noexcept
{
    return of_.told.load(std::memory_order_relaxed) + untold_ + more <= of_.bound;
}

// Evicts until an item of this size fits, and answers whether it does.
bool access::make_room(std::int64_t more)
{
    if (more > of_.bound)
        return false;
    for (int failures = 0; !fits(more) && failures < most_failures;)
        failures = evict() ? 0 : failures + 1;
    return fits(more);
}

// Removes those items of one hash, out of a few that come next, which weren't used for longest.
// Answers whether it did.
bool access::evict()
{
    const auto pinned = of_.items.try_pin();
    if (!pinned.has_value())
        return false;
    samvolip_entry some[sample];
    const int found = hand_.next(some, sample);
    const item *oldest = nullptr;
    std::uint64_t hash = 0;
    for (int i = 0; i < found; i++) {
        const item *one = pinned->get(some[i].key);
        if (one && (!oldest || age_of(one, now_) > age_of(oldest, now_))) {
            oldest = one;
            hash = some[i].key;
        }
    }
    const item *expected = oldest;
    if (!oldest || !of_.items.compare_exchange(hash, expected, nullptr).value_or(false))
        return false;
    const extent gone = extent_of(oldest);
    count(gone, extent());
    mine_.evicted.add(gone.keys);
    return true;
}

} // namespace cache
