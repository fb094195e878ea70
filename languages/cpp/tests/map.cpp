// Each call of samvolip::map by one thread, with its answers and refusals; the calls of one key also of a seat.
#include "samvolip_seats.hpp"

#include "../../c/tests/expect.h"

#include <algorithm>
#include <atomic>
#include <csignal>
#include <map>
#include <set>
#include <ucontext.h>
#include <x86intrin.h>

using samvolip::emplaced;
using samvolip::fault;
using samvolip::found;
using samvolip::keys;

static_assert(!std::is_copy_constructible_v<samvolip::map> && std::is_nothrow_move_constructible_v<samvolip::map>);
static_assert(!std::is_copy_constructible_v<samvolip::walk> && std::is_nothrow_move_constructible_v<samvolip::walk>);
#if __cplusplus >= 202002L
#include <ranges>
static_assert(std::ranges::input_range<samvolip::map> && std::ranges::input_range<const samvolip::map>);
#endif

namespace {

samvolip::map opened(keys how, std::uint64_t room = 0)
{
    samvolip::options options;
    options.keys = how;
    options.room = room;
    return samvolip::map(options);
}

// ---- calls of one key, of a map and of a seat alike

template <class Caller> void writes(Caller &caller)
{
    EXPECT(caller.get(7).value() == std::nullopt && !caller.contains(7).value());
    EXPECT(caller.insert_or_assign(7, 5).value() && !caller.insert_or_assign(7, 6).value());
    EXPECT(caller.get(7).value() == 6u && caller.contains(7).value());
    EXPECT(caller.exchange(7, 5).value() == 6u && caller.exchange(8, 1).value() == std::nullopt);
    const emplaced there = caller.try_emplace(8, 3).value();
    EXPECT(there.value == 1 && !there.inserted);
    const auto [value, inserted] = caller.try_emplace(9, 3).value();
    EXPECT(value == 3 && inserted && caller.extract(9).value() == 3u);
    EXPECT(caller.replace(9, 1).value() == std::nullopt && !caller.contains(9).value());
    EXPECT(caller.replace(8, 2).value() == 1u);
    EXPECT(!caller.replace_if(8, 1, 3).value() && caller.replace_if(8, 2, 3).value());
    EXPECT(!caller.erase_if(8, 2).value() && caller.erase_if(8, 3).value() && !caller.erase_if(8, 3).value());
    EXPECT(caller.add(8, 4).value() == std::nullopt && caller.add(8, 4).value() == 4u);
    EXPECT(caller.extract(8).value() == 8u && caller.extract(8).value() == std::nullopt && !caller.erase(8).value());
    EXPECT(caller.fetch_max(8, 3).value() == std::nullopt && caller.fetch_max(8, 2).value() == 3u);
    EXPECT(caller.fetch_max(8, 5).value() == 3u && caller.fetch_min(8, 6).value() == 5u);
    EXPECT(caller.fetch_min(8, 1).value() == 5u && caller.get(8).value() == 1u);
    EXPECT(caller.fetch_min(9, 1).value() == std::nullopt && caller.erase(9).value() && !caller.contains(9).value());
}

template <class Caller> void exchanges(Caller &caller)
{
    found expected = 2;
    EXPECT(!caller.compare_exchange(8, expected, 7).value() && expected == 1u);
    EXPECT(caller.compare_exchange(8, expected, 7).value() && expected == 1u);
    expected = 7;
    EXPECT(caller.compare_exchange(8, expected, std::nullopt).value() && !caller.contains(8).value());
    EXPECT(!caller.compare_exchange(8, expected, 1).value() && expected == std::nullopt);
    EXPECT(caller.compare_exchange(8, expected, 1).value() && caller.get(8).value() == 1u);
    expected = 1;
    EXPECT(caller.compare_exchange(8, expected, SAMVOLIP_VALUE_MAX + 1).error().why() == fault::value_range && expected == 1u);
}

// a plain function as the one that makes the value
found next_of(found value) { return value.value_or(0) + 1; }

template <class Caller> void updates(Caller &caller)
{
    unsigned times = 0;
    auto doubled = [&times](found value) -> found {
        times++;
        return value ? found(*value * 2) : found(1);
    };
    EXPECT(caller.update(9, doubled).value() == std::nullopt && caller.get(9).value() == 1u);
    EXPECT(caller.update(9, doubled).value() == 1u && caller.get(9).value() == 2u && times == 2);

    // the function calls the same map, and so comes before its own exchange
    unsigned calls = 0;
    auto disturbed = [&](found value) -> found {
        if (calls++ < 2)
            EXPECT(caller.add(9, 10).value() == value);
        return *value + 1;
    };
    EXPECT(caller.update(9, disturbed).value() == 22u && calls == 3 && caller.get(9).value() == 23u);
    EXPECT(caller.update(9, next_of).value() == 23u && caller.update(9, &next_of).value() == 24u);
    EXPECT(caller.update(9, [](found) { return found(SAMVOLIP_VALUE_MAX + 1); }).error().why() == fault::value_range);
    EXPECT(caller.update(9, [](found) { return found(); }).value() == 25u && !caller.contains(9).value());
#ifdef __cpp_exceptions
    bool thrown = false;
    try {
        (void)caller.update(9, [](found) -> found { throw 1; });
    } catch (int) {
        thrown = true;
    }
    EXPECT(thrown && !caller.contains(9).value());
#endif
}

template <class T> bool is_refused(const samvolip::result<T> &answer, fault why)
{
    return !answer.has_value() && answer.error().why() == why;
}

template <class Caller> void refuses(Caller &caller)
{
    found any;
    for (std::uint64_t key : {SAMVOLIP_KEY_MAX + 1, SAMVOLIP_KEY_MAX + 2}) {
        EXPECT(is_refused(caller.get(key), fault::key_range) && is_refused(caller.contains(key), fault::key_range));
        EXPECT(is_refused(caller.insert_or_assign(key, 1), fault::key_range) && is_refused(caller.exchange(key, 1), fault::key_range));
        EXPECT(is_refused(caller.try_emplace(key, 1), fault::key_range) && is_refused(caller.replace(key, 1), fault::key_range));
        EXPECT(is_refused(caller.add(key, 1), fault::key_range) && is_refused(caller.erase(key), fault::key_range));
        EXPECT(is_refused(caller.extract(key), fault::key_range));
        EXPECT(is_refused(caller.fetch_max(key, 1), fault::key_range) && is_refused(caller.fetch_min(key, 1), fault::key_range));
        EXPECT(is_refused(caller.replace_if(key, 1, 1), fault::key_range) && is_refused(caller.erase_if(key, 1), fault::key_range));
        EXPECT(is_refused(caller.compare_exchange(key, any, 1), fault::key_range));
        EXPECT(is_refused(caller.update(key, next_of), fault::key_range));
    }
    const std::uint64_t past = SAMVOLIP_VALUE_MAX + 1;
    EXPECT(is_refused(caller.insert_or_assign(1, past), fault::value_range) && is_refused(caller.exchange(1, past), fault::value_range));
    EXPECT(is_refused(caller.try_emplace(1, past), fault::value_range) && is_refused(caller.replace(1, past), fault::value_range));
    EXPECT(is_refused(caller.add(1, past), fault::value_range) && is_refused(caller.fetch_max(1, past), fault::value_range));
    EXPECT(is_refused(caller.fetch_min(1, past), fault::value_range) && is_refused(caller.replace_if(1, 1, past), fault::value_range));
    EXPECT(is_refused(caller.replace_if(1, past, 1), fault::value_range) && is_refused(caller.erase_if(1, past), fault::value_range));
    EXPECT(caller.exchange(1, SAMVOLIP_VALUE_MAX).has_value());
    const auto refused = caller.add(1, 1);
    EXPECT(is_refused(refused, fault::sum_range) && std::string(refused.error().message()) == "sum too large");
    EXPECT(refused.value_or(3) == 3u && caller.add(1, 0).value_or(3) == SAMVOLIP_VALUE_MAX);
    EXPECT(caller.erase(1).error().why() == fault::none);
#ifdef __cpp_exceptions
    bool thrown = false;
    try {
        refused.value();
    } catch (const samvolip::refused &what) {
        thrown = what.error().why() == fault::sum_range && std::string(what.what()) == "samvolip: sum too large";
    }
    EXPECT(thrown);
#endif
}

// A negative number is no key, and no value, of whatever type it is: its bits would be those of a key else.
template <class Caller> void takes_signed_numbers(Caller &caller)
{
    EXPECT(caller.add(40, 1).value() == std::nullopt && caller.add(40u, 1).value() == 1u && caller.extract(40l).value() == 2u);
    const int i = -3;
    EXPECT(is_refused(caller.add(i, 1), fault::key_range) && is_refused(caller.get(i), fault::key_range));
    EXPECT(is_refused(caller.insert_or_assign(INT64_MIN, 1), fault::key_range) && is_refused(caller.erase(-1), fault::key_range));
    EXPECT(is_refused(caller.try_emplace(short(-300), 1), fault::key_range) && is_refused(caller.contains(-1000ll), fault::key_range));
    EXPECT(is_refused(caller.update(i, next_of), fault::key_range) && is_refused(caller.erase_if(i, 1), fault::key_range));
    EXPECT(is_refused(caller.add(40, i), fault::value_range) && is_refused(caller.add(40, INT64_MIN), fault::value_range));
    EXPECT(caller.add(i, 1).error().message() == std::string("a key is from 0 to 2^64 - 3"));
    EXPECT(caller.add(40, i).error().message() == std::string("a value is from 0 to 2^60 - 1"));
    EXPECT(caller.add(static_cast<std::uint64_t>(i), 1).has_value() && caller.extract(SAMVOLIP_KEY_MAX).value() == 1u);
    enum kind { first = 1 };
    EXPECT(caller.add(first, 1).value() == std::nullopt && caller.add(true, 1).value() == 1u && caller.extract('\1').value() == 2u);
}

template <class Caller> void calls(Caller &caller)
{
    writes(caller);
    exchanges(caller);
    updates(caller);
    refuses(caller);
    takes_signed_numbers(caller);
    EXPECT(caller.erase(7).has_value() && caller.erase(8).has_value());
}

// ---- the whole map

// Puts the keys 0, 65536 and so on, each with which one it is.
void put_keys(samvolip::map &map, std::uint64_t from, std::uint64_t to)
{
    for (std::uint64_t i = from; i < to; i++)
        EXPECT(map.insert_or_assign(i * 65536, i).value());
}

// The map has just these keys: by its size, a snapshot, a loop and gets.
void has_keys(samvolip::map &map, std::uint64_t count)
{
    std::map<std::uint64_t, std::uint64_t> listed;
    const auto entries = map.snapshot().value();
    for (auto [key, value] : entries)
        EXPECT(listed.emplace(key, value).second);
    EXPECT(entries.size() == count && map.size().value() == count && map.size_estimate().value() == count);
    std::uint64_t shown = 0;
    for (auto [key, value] : map) {
        EXPECT(listed.at(key) == value && key == value * 65536 && value < count);
        shown++;
    }
    EXPECT(shown == count && !map.contains(count * 65536).value());
    for (std::uint64_t i = 0; i < count; i++)
        EXPECT(map.get(i * 65536).value() == i);
}

void grows_and_shrinks(keys how)
{
    samvolip::map map = opened(how);
    has_keys(map, 0);
    const std::uint64_t begun = map.figures()->slots;
    put_keys(map, 0, 20000);
    has_keys(map, 20000);
    const samvolip_map_figures figures = map.figures().value();
    EXPECT(figures.renewals > 0 && figures.slots > 20000 && figures.keys == 20000 && figures.refused == 0);
    EXPECT(figures.own_threads == 1 && figures.all_stops >= figures.write_stop && figures.write_stop >= figures.read_stop);

    EXPECT(map.renew(100000).has_value() && map.figures()->slots >= 100000 && map.figures()->renewals == figures.renewals + 1);
    has_keys(map, 20000);
    for (std::uint64_t i = 10; i < 20000; i++)
        EXPECT(map.extract(i * 65536).value() == i);
    EXPECT(map.renew().has_value() && map.figures()->slots == begun);
    has_keys(map, 10);

    std::set<std::uint64_t> gone;
    auto visit = [&](std::uint64_t key, std::uint64_t value) {
        EXPECT(key == value * 65536 && gone.insert(value).second && map.add(65536, 1).has_value());
    };
    EXPECT(map.clear(visit).has_value() && gone.size() == 10 && map.get(65536).value() == 10u);
    EXPECT(map.clear().has_value() && map.clear([](std::uint64_t, std::uint64_t) { std::abort(); }).has_value());
    has_keys(map, 0);
    map.leave();
    map.leave();
    put_keys(map, 0, 5);
    has_keys(map, 5);
}

// Keys that come and go for ever fill nothing up.
void never_fills()
{
    samvolip::map map;
    for (std::uint64_t i = 0; i < 100000; i++) {
        EXPECT(map.insert_or_assign(i, i).value());
        EXPECT(i < 100 || map.extract(i - 100).value() == i - 100);
    }
    EXPECT(map.size().value() == 100 && map.figures()->slots <= 4096);
}

void walks(keys how)
{
    samvolip::map map = opened(how);
    put_keys(map, 0, 300);

    // loops within loops, with writes meanwhile
    std::uint64_t pairs = 0;
    for (auto [a, of_a] : map) {
        if (of_a >= 20)
            continue;
        for (const samvolip::entry &b : map)
            pairs += b.value < 20 && a / 65536 == of_a && b.key / 65536 == b.value;
        EXPECT(map.exchange(a, of_a).value() == of_a);
    }
    EXPECT(pairs == 400);
    for (auto at = map.begin(); at != map.end(); at++)
        EXPECT(at->key == at->value * 65536 && !(at == map.end()) && (*at).value < 300);

    // what takes two iterators takes these
    const std::vector all(map.begin(), map.end());
    static_assert(std::is_same_v<decltype(all), const std::vector<samvolip::entry>>);
    std::set<std::uint64_t> keys;
    for (auto [key, value] : all)
        EXPECT(keys.insert(key).second && map.get(key).value() == value);
    EXPECT(all.size() == 300 && std::distance(map.begin(), map.end()) == 300);
    const auto is_small = [](const samvolip::entry &one) { return one.value < 20; };
    EXPECT(std::count_if(map.begin(), map.end(), is_small) == 20 && std::find_if(map.begin(), map.end(), is_small)->value < 20);
    auto first = map.begin();
    const auto before = *first++, behind = *first;
    EXPECT(before.key != behind.key && samvolip::map().begin() == samvolip::map::iterator());

    // a walk shows what there was where it began, through renewals and a clear, and moves
    samvolip::walk walk = map.walk().value(), other = map.walk().value();
    std::set<std::uint64_t> shown;
    EXPECT(shown.insert(walk.next().value()->value).second && other.next().value().has_value());
    EXPECT(map.renew().has_value() && shown.insert(walk.next().value()->value).second);
    EXPECT(map.clear().has_value());
    other = std::move(walk);
    while (const auto next = other.next().value())
        EXPECT(next->key == next->value * 65536 && shown.insert(next->value).second);
    EXPECT(shown.size() == 300 && !other.next().value() && map.size().value() == 0);
}

// Loops by functions, which call the map: what another one wrote is shown to the predicate again.
void shows_and_erases(keys how)
{
    samvolip::map map = opened(how);
    EXPECT(map.empty().value() && map.for_each([](std::uint64_t, std::uint64_t) { std::abort(); }).value() == 0);
    put_keys(map, 0, 300);
    std::set<std::uint64_t> seen;
    const auto see = [&](std::uint64_t key, std::uint64_t value) {
        EXPECT(key == value * 65536 && seen.insert(value).second && map.get(key).value() == value);
    };
    EXPECT(map.for_each(see).value() == 300 && seen.size() == 300 && !map.empty().value());

    // of every four, one is written before it is erased, one is written and stays, and one is gone before
    unsigned asked = 0;
    const auto goes = [&](std::uint64_t key, std::uint64_t value) {
        asked++;
        const std::uint64_t kind = key / 65536 % 4;
        if (value >= 1000)
            return kind == 1;
        if (kind == 3)
            EXPECT(map.extract(key).value() == value);
        else if (kind != 0)
            EXPECT(map.exchange(key, value + 1000).value() == value);
        return kind != 0;
    };
    EXPECT(map.erase_if(goes).value() == 75 && asked == 75 * (1 + 2 + 2 + 1) && map.size().value() == 150);
    EXPECT(map.get(65536 * 2).value() == 1002u && map.get(0).value() == 0u && !map.contains(65536).value());
    EXPECT(map.erase_if([](std::uint64_t, std::uint64_t) { return true; }).value() == 150 && map.empty().value());
}

// Two numbers are mixed to no keys: they are keys all the same, as the greatest ones are.
void takes_every_key(keys how)
{
    const std::uint64_t known[] = {0, 1, 1504646209777642070, 5863696168926310861, SAMVOLIP_KEY_MAX - 1, SAMVOLIP_KEY_MAX};
    samvolip::map map = opened(how);
    for (std::uint64_t key : known)
        EXPECT(map.insert_or_assign(key, key % 1000).value());
    std::set<std::uint64_t> shown;
    for (auto [key, value] : map)
        EXPECT(value == key % 1000 && shown.insert(key).second && map.get(key).value() == value);
    EXPECT(shown == std::set<std::uint64_t>(std::begin(known), std::end(known)));
}

// ---- options and refusals

void opens_and_moves()
{
    struct both {
        samvolip::map one, other;
    } maps{};
    EXPECT(maps.one.insert_or_assign(1, 1).value() && maps.other.get(1).value() == std::nullopt);
    maps.other = std::move(maps.one);
    EXPECT(maps.other.get(1).value() == 1u && maps.one.native_handle() == nullptr);
    maps.one = opened(keys::as_they_are, 5000);
    EXPECT(maps.one.figures()->slots == 8192);
    std::swap(maps.one, maps.other);
    EXPECT(maps.one.get(1).value() == 1u && samvolip_map_contains(maps.one.native_handle(), 1) == 1);

    EXPECT(samvolip::map::open().has_value() && samvolip::map::open({})->size().value() == 0);
    const auto refusal_of = [](auto change) {
        samvolip::options options;
        change(options);
        const auto answer = samvolip::map::open(options);
        EXPECT(is_refused(answer, fault::options));
        return std::string(answer.error().message());
    };
    EXPECT(refusal_of([](samvolip::options &how) { how.growth = 65; }) == "growth: from 2 to 64 times");
    EXPECT(refusal_of([](samvolip::options &how) { how.threads = 1000; }) == "threads: at most 240");
    EXPECT(refusal_of([](samvolip::options &how) { how.keys = static_cast<keys>(3); }) == "keys: secret, mixed, or as they are");
    EXPECT(refusal_of([](samvolip::options &how) { how.room = UINT64_MAX; }) == "room: for at most 178956970 keys");
    EXPECT(refusal_of([](samvolip::options &how) { how.memory = 1000; }).rfind("memory: at least that of two first tables", 0) == 0);
#ifdef __cpp_exceptions
    bool thrown = false;
    try {
        samvolip::options options;
        options.threads = 1000;
        samvolip::map never(options);
    } catch (const samvolip::refused &what) {
        thrown = what.error().why() == fault::options && std::string(what.what()) == "samvolip: threads: at most 240";
    }
    EXPECT(thrown);
#endif
}

// A map of which the options say how large it gets.
void keeps_to_its_memory()
{
    samvolip::options options;
    options.room = 20;
    options.memory = 3 * 64 * sizeof(samvolip::entry);
    options.threads = 1;
    samvolip::map map(options);
    std::uint64_t key = 0;
    while (map.try_emplace(key, key).has_value())
        key++;
    EXPECT(key >= 64 && is_refused(map.try_emplace(key, key), fault::out_of_memory) && map.try_emplace(0, 1)->value == 0);
    EXPECT(is_refused(map.insert_or_assign(key, 1), fault::out_of_memory) && is_refused(map.exchange(key, 1), fault::out_of_memory));
    EXPECT(is_refused(map.add(key, 1), fault::out_of_memory) && is_refused(map.fetch_max(key, 1), fault::out_of_memory));
    EXPECT(is_refused(map.update(key, next_of), fault::out_of_memory) && is_refused(map.renew(1000), fault::out_of_memory));
    EXPECT(map.figures()->refused > 0 && map.size().value() == key && map.add(0, 5).value() == 0u);
}

// ---- a handler after each single instruction of a call, by the processor's trap flag

constexpr unsigned long long trap_flag = 0x100;
samvolip::map *interrupted;
std::uint64_t steps, wanted, made, nested;

void interrupt(int, siginfo_t *, void *given)
{
    if (steps++ < wanted)
        return;
    static_cast<ucontext_t *>(given)->uc_mcontext.gregs[REG_EFL] &= ~static_cast<greg_t>(trap_flag);
    const auto answer = interrupted->add(7, 1);
    EXPECT(answer.has_value() || answer.error().why() == fault::nested);
    (answer.has_value() ? made : nested)++;
}

// Makes a call again and again, each time with the handler so many instructions later. Before each call the thread calls another map,
// which has the same place among those that it remembers.
template <class Call> void interrupts(samvolip::map &map, samvolip::map &other, Call call)
{
    std::uint64_t adds = map.get(7).value().value();
    bool is_over = false;
    interrupted = &map;
    for (wanted = made = nested = 0; !is_over; wanted += wanted < 60 ? 1 : 7) {
        EXPECT(other.get(7).value() == 1000u);
        const std::uint64_t before = made;
        steps = 0;
        __writeeflags(__readeflags() | trap_flag);
        const bool adds_one = call(map);
        __writeeflags(__readeflags() & ~trap_flag);
        std::atomic_signal_fence(std::memory_order_seq_cst); // what the handler counts is read after its last time
        is_over = steps <= wanted;
        adds += made - before + adds_one;
        EXPECT(map.get(7).value() == adds && other.get(7).value() == 1000u);
    }
    EXPECT(made > 0 && nested > 0);
}

void takes_handlers()
{
    struct sigaction action = {};
    action.sa_sigaction = interrupt;
    action.sa_flags = SA_SIGINFO;
    EXPECT(sigaction(SIGTRAP, &action, nullptr) == 0);
    std::vector<samvolip::map> maps(9);
    for (samvolip::map &map : maps)
        EXPECT(map.insert_or_assign(7, &map == &maps[0] ? 0 : 1000).value());
    interrupts(maps[0], maps[8], [](samvolip::map &map) { return map.add(7, 1).has_value(); });
    interrupts(maps[0], maps[8], [](samvolip::map &map) { return !map.get(7).has_value(); });
}

} // namespace

int main()
{
    for (keys how : {keys::secret, keys::mixed, keys::as_they_are}) {
        samvolip::map map = opened(how);
        calls(map);
        EXPECT(map.size().value() == 0);
        grows_and_shrinks(how);
        walks(how);
        shows_and_erases(how);
        takes_every_key(how);
    }
    samvolip::seat seat = samvolip::seat::open({{2, 6, 10}, 3, 1, 1, 18, 8}).value();
    calls(seat);
    EXPECT(seat.settle().value() == 0);
    never_fills();
    opens_and_moves();
    keeps_to_its_memory();
    if (!IS_SANITIZED)
        takes_handlers();
    std::puts("map: well");
    return 0;
}
