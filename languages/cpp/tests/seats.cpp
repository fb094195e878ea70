// What samvolip_seats.hpp has beside the calls of a map, which map.cpp tries: shapes, seats that are split, joined and handed on, walks,
// maps that are settled, listed, renewed and closed; and eight threads that write while a map grows.
//     seats [ROUNDS]      how often each of the threads writes
#include "samvolip_seats.hpp"

#include "../../c/tests/expect.h"

#include <map>
#include <thread>

using samvolip::fault;
using samvolip::found;

static_assert(!std::is_copy_constructible_v<samvolip::seat> && std::is_nothrow_move_constructible_v<samvolip::seat>);
static_assert(!std::is_copy_constructible_v<samvolip::ended> && std::is_nothrow_move_constructible_v<samvolip::ended>);
#if __cplusplus >= 202002L
#include <ranges>
static_assert(std::ranges::input_range<samvolip::seat>);
#endif

namespace {

unsigned rounds = 100000;

template <class T> bool is_refused(const samvolip::result<T> &answer, fault why)
{
    return !answer.has_value() && answer.error().why() == why;
}

// The map of a seat that has all seats has just the keys 0, 2 and so on, each with half of itself.
void has_keys(samvolip::seat &seat, std::uint64_t count)
{
    std::map<std::uint64_t, std::uint64_t> listed;
    for (auto [key, value] : seat.entries().value())
        EXPECT(listed.emplace(key, value).second);
    EXPECT(listed.size() == count && seat.settle().value() == count && seat.size_estimate() == count);
    std::uint64_t shown = 0;
    for (auto [key, value] : seat) {
        EXPECT(listed.at(key) == value && key == 2 * value && value < count);
        shown++;
    }
    EXPECT(shown == count && !seat.contains(2 * count).value());
}

void opens_and_ends()
{
    EXPECT(is_refused(samvolip::seat::open(samvolip_shape_for_keys(SAMVOLIP_MOST_KEYS + 1, 1)), fault::tables));
    EXPECT(is_refused(samvolip::seat::open({{5, 4}, 2, 1, 1, 18, 8}), fault::falling));
    const auto refused = samvolip::seat::open(samvolip_shape_for_keys(10, 257));
    EXPECT(is_refused(refused, fault::seats) && std::string(refused.error().message()) == "number of seats out of range");

    samvolip::seat one = samvolip::seat::open({{2, 6, 10}, 3, 2, 1, 18, 8}).value(), other = one.split().value(), empty;
    EXPECT(one && other && !empty && is_refused(one.split(), fault::no_seat) && is_refused(other.split(), fault::no_seat));
    for (std::uint64_t i = 0; i < 300; i++)
        EXPECT((i % 2 ? one : other).insert_or_assign(2 * i, i).value());
    EXPECT(one.generation() == 2 && one.size_estimate() == 300 && one.occupancy().is_last == 1 && !one.should_renew());
    EXPECT(is_refused(one.settle(), fault::not_all_seats) && is_refused(one.entries(), fault::not_all_seats));
    EXPECT(is_refused(one.renew({{10}, 1, 1, 1, 18, 8}), fault::not_all_seats) && is_refused(one.close(), fault::not_all_seats));

    // a seat goes to another thread and comes back
    std::thread([given = std::move(other), &empty]() mutable {
        EXPECT(given.get(20).value() == 10u);
        empty = std::move(given);
    }).join();
    EXPECT(!other && empty && one.join(std::move(empty)).has_value() && !empty);
    has_keys(one, 300);

    samvolip::ended ended = one.close().value();
    EXPECT(!one && ended && ended.size() == 300 && ended.get(20).value() == 10u && ended.get(21).value() == std::nullopt);
    EXPECT(is_refused(ended.get(SAMVOLIP_KEY_MAX + 1), fault::key_range));
    samvolip::ended moved = std::move(ended);
    const auto entries = moved.entries().value();
    EXPECT(!ended && entries.size() == 300);
    for (std::uint64_t i = 0; i < 300; i++)
        EXPECT(entries[i].key == 2 * i && entries[i].value == i);
    ended = std::move(moved);
    EXPECT(ended.size() == 300 && !moved);
}

void fills_and_renews()
{
    const samvolip::shape small = {{2, 4}, 2, 2, 1, UINT32_MAX, 8};
    samvolip::seat seat = samvolip::seat::open(small).value();
    has_keys(seat, 0);
    for (std::uint64_t i = 0; i < 16; i++)
        EXPECT(seat.add(2 * i, i).value() == std::nullopt);
    EXPECT(is_refused(seat.insert_or_assign(99, 1), fault::full) && is_refused(seat.exchange(99, 1), fault::full));
    EXPECT(is_refused(seat.try_emplace(99, 1), fault::full) && is_refused(seat.fetch_min(99, 1), fault::full));
    EXPECT(seat.should_renew() && seat.try_emplace(6, 1)->value == 3);
    has_keys(seat, 16);

    // refused, and the map is as it was; then larger, with more seats; then smaller
    EXPECT(is_refused(seat.renew({{3}, 1, 2, 1, 18, 8}), fault::full) && is_refused(seat.renew({{5}, 1, 0, 1, 18, 8}), fault::seats));
    has_keys(seat, 16);
    EXPECT(seat.renew({{3, 5, 8}, 3, 5, 2, 18, 8}).has_value());
    for (std::uint64_t i = 16; i < 200; i++)
        EXPECT(seat.add(2 * i, i).value() == std::nullopt);
    has_keys(seat, 200);
    std::vector<samvolip::seat> others;
    for (unsigned i = 1; i < 5; i++)
        others.push_back(seat.split().value());
    EXPECT(is_refused(seat.split(), fault::no_seat) && others[3].get(398).value() == 199u);
    for (samvolip::seat &one : others)
        EXPECT(seat.join(std::move(one)).has_value() && !one);
    for (std::uint64_t i = 10; i < 200; i++)
        EXPECT(seat.extract(2 * i).value() == i);
    EXPECT(seat.renew(small).has_value() && !seat.should_renew());
    has_keys(seat, 10);

    // a seat that is freed is lost to the map, which works on
    { const samvolip::seat lost = seat.split().value(); }
    EXPECT(is_refused(seat.settle(), fault::not_all_seats) && seat.get(18).value() == 9u);
}

void walks()
{
    samvolip::seat seat = samvolip::seat::open(samvolip_shape_for_keys(100, 1)).value();
    for (std::uint64_t i = 0; i < 100; i++)
        EXPECT(seat.insert_or_assign(i, i).value());
    std::uint64_t pairs = 0;
    for (auto [a, of_a] : seat)
        for (const samvolip::entry &b : seat)
            pairs += a == of_a && b.key == b.value;
    EXPECT(pairs == 10000);
    samvolip::seat_walk walk = seat.walk();
    EXPECT(walk.next().value().has_value());
    samvolip::seat_walk copy = walk;
    std::uint64_t shown = 0;
    while (walk.next().value())
        shown++;
    while (copy.next().value())
        shown++;
    EXPECT(shown == 2 * 99 && !walk.next().value());
    EXPECT(samvolip_contains(seat.native_handle(), 5) == 1);
}

// Eight threads add to the same keys, each with its seat, while the map grows through six tables.
void grows()
{
    constexpr unsigned threads = 8;
    constexpr std::uint64_t most_keys = 5000;
    samvolip::seat all = samvolip::seat::open({{4, 6, 8, 10, 12, 14}, 6, threads + 1, 4, 18, 64}).value();
    std::vector<std::vector<std::uint64_t>> added(threads, std::vector<std::uint64_t>(most_keys));
    std::vector<samvolip::seat> seats;
    for (unsigned i = 0; i < threads; i++)
        seats.push_back(all.split().value());
    std::vector<std::thread> running;
    for (unsigned number = 0; number < threads; number++)
        running.emplace_back([&, number] {
            samvolip::seat &seat = seats[number];
            std::uint64_t state = 88172645463325252u + number;
            for (unsigned i = 0; i < rounds; i++) {
                state ^= state << 13;
                state ^= state >> 7;
                state ^= state << 17;
                const std::uint64_t key = state % most_keys;
                const found before = seat.add(key, 1 + i % 3).value();
                added[number][key] += 1 + i % 3;
                EXPECT(seat.get(key).value().value() >= before.value_or(0) + 1 + i % 3);
                if (i % (rounds / 4 + 1) == 0)
                    for (auto [at, there] : seat)
                        EXPECT(at < most_keys && there > 0);
            }
        });
    for (std::thread &one : running)
        one.join();
    for (samvolip::seat &one : seats)
        EXPECT(all.join(std::move(one)).has_value());
    const samvolip::ended ended = all.close().value();
    for (std::uint64_t key = 0; key < most_keys; key++) {
        std::uint64_t sum = 0;
        for (const auto &of : added)
            sum += of[key];
        EXPECT(ended.get(key).value().value_or(0) == sum);
    }
}

} // namespace

int main(int count, char **words)
{
    if (count > 1)
        rounds = unsigned(std::strtoul(words[1], nullptr, 10));
    opens_and_ends();
    fills_and_renews();
    walks();
    grows();
    std::puts("seats: well");
    return 0;
}
