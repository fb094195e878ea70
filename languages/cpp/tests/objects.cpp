// samvolip::object_map: each call with its answers and refusals; that each object is deleted once, and none that a pin keeps; and
// threads that read, write, expire and count while the map is renewed.
//     objects [ROUNDS]      how often each of the threads writes
#include "samvolip_objects.hpp"

#include "../../c/tests/expect.h"

#include <atomic>
#include <functional>
#include <string>
#include <thread>

using samvolip::fault;
using samvolip::object_map;

namespace {

unsigned rounds = 50000;

std::atomic<int> alive{0};

// An object that counts itself, and knows whether it is deleted twice.
struct counted {
    explicit counted(std::uint64_t number, std::string text = "") : number(number), text(std::move(text)) { alive++; }
    counted(const counted &) = delete;
    counted &operator=(const counted &) = delete;
    ~counted()
    {
        EXPECT(mark == 7);
        mark = 0;
        alive--;
    }

    std::uint64_t number;
    std::string text;
    volatile int mark = 7;
};

std::unique_ptr<counted> fresh(std::uint64_t number) { return std::make_unique<counted>(number); }

static_assert(!std::is_copy_constructible_v<object_map<counted>> && std::is_nothrow_move_constructible_v<object_map<counted>>);
static_assert(!std::is_copy_constructible_v<samvolip::pin<counted>> && std::is_nothrow_move_constructible_v<samvolip::pin<counted>>);
static_assert(std::is_nothrow_move_assignable_v<object_map<counted>> && std::is_nothrow_move_assignable_v<samvolip::pin<counted>>);
static_assert(std::is_same_v<decltype(std::declval<object_map<counted> &>().pin()), samvolip::pin<counted>>);
static_assert(std::is_same_v<decltype(std::declval<const object_map<counted> &>().pin()), samvolip::pin<const counted>>);

// Of what has a name a pointer may be had, and not of what ends with its expression: `map.pin().get(1)`, `map.try_pin()->get(1)`.
template <class Pin, class = void> constexpr bool gives = false;
template <class Pin> constexpr bool gives<Pin, std::void_t<decltype(std::declval<Pin>().get(1))>> = true;
template <class Pinned, class = void> constexpr bool is_had = false;
template <class Pinned> constexpr bool is_had<Pinned, std::void_t<decltype(std::declval<Pinned>().get(), *std::declval<Pinned>())>> = true;
template <class Answer, class = void> constexpr bool leads_on = false;
template <class Answer> constexpr bool leads_on<Answer, std::void_t<decltype(std::declval<Answer>().operator->())>> = true;
using pin_of = samvolip::pin<counted>;
using pinned_of = samvolip::pinned<counted>;
static_assert(gives<pin_of &> && gives<const pin_of &> && !gives<pin_of> && !gives<const pin_of>);
static_assert(is_had<pinned_of &> && is_had<const pinned_of &> && !is_had<pinned_of> && !is_had<const pinned_of>);
static_assert(leads_on<samvolip::result<pin_of> &> && !leads_on<samvolip::result<pin_of>> && !leads_on<samvolip::result<pinned_of>>);
static_assert(leads_on<samvolip::result<samvolip_map_figures>>);

// What is at a key of a map of which nobody else takes it out.
template <class Map> auto &at(Map &map, std::uint64_t key)
{
    const auto pin = map.pin();
    return *pin.get(key);
}

// ---- calls of one key

void puts_and_gets()
{
    object_map<counted> map;
    EXPECT(map.insert_or_assign(7, fresh(1)).value() && !map.insert_or_assign(7, fresh(2)).value() && map.contains(7).value());
    map.collect().value();
    auto pin = map.pin();
    counted *there = pin.get(7);
    EXPECT(there->number == 2 && pin.get(8) == nullptr && pin.get(SAMVOLIP_KEY_MAX + 1) == nullptr);
    there->number = 3;
    EXPECT(at(std::as_const(map), 7).number == 3);
    EXPECT(map.erase(7).value() && !map.erase(7).value() && !map.contains(7).value() && pin.get(7) == nullptr);
    map.collect().value();
    EXPECT(there->number == 3 && there->mark == 7); // the pin keeps it
    const auto moved = std::move(pin);
    map.collect().value();
    EXPECT(there->mark == 7 && moved.get(7) == nullptr && alive == 1 && map.object_figures()->waiting == 1);

    // nullptr is no object
    EXPECT(!map.insert_or_assign(7, nullptr).value() && map.insert_or_assign(7, fresh(4)).value());
    EXPECT(!map.insert_or_assign(7, nullptr).value() && !map.contains(7).value());
    EXPECT(!map.insert(7, nullptr).value() && map.size().value() == 0);
}

void emplaces()
{
    object_map<counted> map;
    EXPECT(map.try_emplace(7, 1u, "one").value() && !map.try_emplace(7, 2u).value());
    EXPECT(at(map, 7).text == "one" && alive == 1);
    auto mine = fresh(3);
    EXPECT(!map.insert(7, std::move(mine)).value() && mine && map.insert(8, std::move(mine)).value() && !mine);
    EXPECT(at(map, 8).number == 3 && map.size().value() == 2 && map.size_estimate().value() == 2);
}

void erases()
{
    object_map<counted> map;
    for (std::uint64_t key = 0; key < 1000; key++)
        EXPECT(map.insert_or_assign(key, fresh(key * key)).value());
    EXPECT(!map.erase_if(3, [](const counted &there) { return there.number == 3; }).value());
    EXPECT(map.erase_if(3, [](const counted &there) { return there.number == 9; }).value());
    EXPECT(!map.erase_if(3, [](const counted &) { return true; }).value());
    EXPECT(map.erase_if([](std::uint64_t key, const counted &there) { return key % 2 == 1 && there.number > 100; }).value() == 495);
    EXPECT(map.size().value() == 504 && map.clear().value() == 504 && map.size().value() == 0 && map.clear().value() == 0);
    map.collect().value();
    EXPECT(alive == 0);

    // the predicate is asked about the object that is erased
    map.insert_or_assign(1, fresh(1)).value();
    unsigned asked = 0;
    EXPECT(!map.erase_if(1, [&](const counted &there) {
                   if (asked++ == 0)
                       EXPECT(!map.insert_or_assign(1, fresh(2)).value());
                   return there.number == 1;
               }).value());
    EXPECT(asked == 2 && at(map, 1).number == 2);
}

void exchanges()
{
    object_map<counted> map;
    const auto pin = map.pin();
    const counted *expected = nullptr;
    auto next = fresh(1);
    EXPECT(map.compare_exchange(7, expected, std::move(next)).value() && !next && !expected);
    const counted *const first = pin.get(7);
    next = fresh(2);
    EXPECT(!map.compare_exchange(7, expected, std::move(next)).value() && next && expected == first); // what is there
    EXPECT(map.compare_exchange(7, expected, std::move(next)).value() && !next && expected == first && pin.get(7)->number == 2);
    counted *there = pin.get(7);
    EXPECT(!map.compare_exchange(7, expected, nullptr).value() && expected == there);
    EXPECT(map.compare_exchange(7, there, nullptr).value() && !map.contains(7).value() && there == expected);
    EXPECT(!map.compare_exchange(7, there, fresh(3)).value() && !there && expected->mark == 7);
    EXPECT(map.compare_exchange(7, there, nullptr).value() && map.object_figures()->retired == 2);
}

void computes()
{
    object_map<counted> map;
    const auto more = [](const counted *there) { return fresh(there ? there->number + 1 : 1); };
    for (unsigned i = 0; i < 1000; i++)
        EXPECT(map.compute(7, more).value()->number == i + 1);
    EXPECT(at(map, 7).number == 1000 && map.object_figures()->retired == 999);

    // it erases, or leaves as it is, and answers what is there then, which its own pin keeps
    using samvolip::computed;
    const auto leaves = [](const counted *) { return samvolip::unchanged; };
    const auto erases = [](const counted *) { return nullptr; };
    map.collect().value();
    const auto left = map.compute(7, leaves).value();
    EXPECT(left && left->number == 1000 && !map.compute(8, leaves).value() && !map.compute(8, erases).value());
    EXPECT(!map.compute(7, erases).value() && !map.contains(7).value());
    EXPECT(!map.compute(7, [](const counted *) { return std::unique_ptr<counted>(); }).value());
    map.collect().value();
    EXPECT(left.get()->mark == 7 && (*left).number == 1000 && alive == 1);
    const auto each = [](const counted *there) -> computed<counted> {
        if (!there)
            return fresh(1);
        if (there->number == 1)
            return samvolip::unchanged;
        return nullptr;
    };
    EXPECT(map.compute(7, each).value()->number == 1 && map.compute(7, each).value()->number == 1);
    EXPECT(!map.insert_or_assign(7, fresh(2)).value() && !map.compute(7, each).value() && !map.contains(7).value());

    // the function calls the map, and so comes before its own exchange
    unsigned calls = 0;
    const auto disturbed = [&](const counted *there) {
        if (calls++ < 2)
            map.insert_or_assign(7, fresh(10 * calls)).value();
        return fresh(there ? there->number + 1 : 1);
    };
    EXPECT(map.compute(7, disturbed).value()->number == 21 && calls == 3 && at(map, 7).number == 21);
}

// ---- refusals

void refusals()
{
    object_map<counted> map;
    auto mine = fresh(1);
    EXPECT(map.insert_or_assign(SAMVOLIP_KEY_MAX + 1, std::move(mine)).error().why() == fault::key_range && mine);
    EXPECT(map.insert(SAMVOLIP_KEY_MAX + 1, std::move(mine)).error().why() == fault::key_range && mine);
    EXPECT(map.erase(SAMVOLIP_KEY_MAX + 1).error().why() == fault::key_range);
    EXPECT(map.try_emplace(SAMVOLIP_KEY_MAX + 1, 1u).error().why() == fault::key_range);
    EXPECT(map.contains(SAMVOLIP_KEY_MAX + 1).error().why() == fault::key_range);
    EXPECT(map.compute(SAMVOLIP_KEY_MAX + 1, [](const counted *) { return fresh(1); }).error().why() == fault::key_range);

    // a pointer with something in its highest bits is kept whole, or refused
    object_map<const char> tagged;
    for (int bit = 60; bit < 64; bit++) {
        std::unique_ptr<const char> pointer(reinterpret_cast<const char *>(std::uint64_t{1} << bit));
        EXPECT(tagged.insert_or_assign(7, std::move(pointer)).error().why() == fault::value_range && pointer);
        EXPECT(!tagged.contains(7).value());
        EXPECT(tagged.insert(7, std::move(pointer)).error().why() == fault::value_range && pointer);
        pointer.release();
    }
    samvolip::options options;
    options.threads = 1000;
    const auto refused = object_map<counted>::open(options);
    EXPECT(refused.error().why() == fault::options && refused.error().message() == std::string("threads: at most 240"));

    // a negative key is none
    object_map<counted> small;
    const int negative = -3;
    mine = fresh(1);
    EXPECT(small.insert_or_assign(negative, std::move(mine)).error().why() == fault::key_range && mine);
    EXPECT(small.try_emplace(negative, 1u).error().why() == fault::key_range);
    const auto pin = small.pin();
    EXPECT(pin.get(negative) == nullptr && small.size().value() == 0);
    EXPECT(small.erase(negative).error().why() == fault::key_range && small.contains(negative).error().why() == fault::key_range);
}

// What a function or a constructor throws goes through, and nothing is lost.
void throws()
{
#ifdef __cpp_exceptions
    struct thrown {};
    struct made {
        explicit made(bool does)
        {
            if (does)
                throw thrown();
        }
    };
    unsigned caught = 0;
    object_map<counted> map;
    map.insert_or_assign(7, fresh(1)).value();
    object_map<made> others;
    const auto attempts = {
        +[](object_map<counted> &to, object_map<made> &) {
            to.compute(7, [](const counted *) -> std::unique_ptr<counted> { throw thrown(); }).value();
        },
        +[](object_map<counted> &to, object_map<made> &) { to.erase_if(7, [](const counted &) -> bool { throw thrown(); }).value(); },
        +[](object_map<counted> &to, object_map<made> &) {
            to.erase_if([](std::uint64_t, const counted &) -> bool { throw thrown(); }).value();
        },
        +[](object_map<counted> &to, object_map<made> &) { to.for_each([](std::uint64_t, counted &) { throw thrown(); }).value(); },
        +[](object_map<counted> &, object_map<made> &to) { to.try_emplace(7, true).value(); },
    };
    for (auto attempt : attempts)
        try {
            attempt(map, others);
        } catch (const thrown &) {
            caught++;
        }
    EXPECT(caught == 5 && at(map, 7).number == 1 && others.size().value() == 0);
    map.insert_or_assign(7, fresh(2)).value();
    map.collect().value();
    EXPECT(alive == 1); // no pin has stayed
#endif
}

// ---- the whole map

void walks()
{
    object_map<counted> map;
    for (std::uint64_t key = 0; key < 3000; key++)
        map.insert_or_assign(key, fresh(key)).value();
    std::uint64_t sum = 0;
    EXPECT(map.for_each([](std::uint64_t, counted &there) { there.number++; }).value() == 3000);
    EXPECT(std::as_const(map).for_each([&](std::uint64_t key, const counted &there) { sum += there.number - key; }).value() == 3000);
    EXPECT(sum == 3000);

    // what the function erases and overwrites stays as long as the walk, also after a renewal
    std::uint64_t shown = 0;
    map.for_each([&](std::uint64_t key, counted &there) {
           EXPECT(there.mark == 7 && there.number == key + 1);
           map.insert_or_assign(key, fresh(key)).value();
           map.erase(key).value();
           if (shown++ == 1000)
               map.renew().value();
           if (shown % 100 == 0)
               map.collect().value();
           EXPECT(there.mark == 7);
       }).value();
    EXPECT(shown == 3000 && map.size().value() == 0);
    map.collect().value();
    EXPECT(alive == 0 && map.object_figures()->waiting == 0 && map.object_figures()->retired == 6000);
}

void moves()
{
    object_map<counted> one, other;
    one.insert_or_assign(1, fresh(1)).value();
    one.insert_or_assign(1, fresh(2)).value(); // one is retired
    other.insert_or_assign(2, fresh(3)).value();
    other = std::move(one);
    EXPECT(at(other, 1).number == 2 && !other.contains(2).value() && other.size().value() == 1);
    EXPECT(one.native_handle() == nullptr && alive == 2); // as a moved map: it is empty, and what was in the other one is deleted
    object_map<counted> &same = other;
    other = std::move(same);
    EXPECT(at(other, 1).number == 2 && alive == 2);
    one = object_map<counted>();
    EXPECT(one.insert_or_assign(5, fresh(5)).value() && at(one, 5).number == 5);
    object_map<counted> third(std::move(other));
    EXPECT(at(third, 1).number == 2);
    third.leave();
    auto opened = object_map<counted>::open();
    opened->insert_or_assign(1, fresh(4)).value();
}

struct shape {
    virtual ~shape() { alive--; }
    virtual int corners() const = 0;
};
struct square : shape {
    square() { alive++; }
    int corners() const override { return 4; }
};

// An object whose destructor erases another one's key.
struct link {
    link(object_map<link> *of, std::uint64_t next) : of(of), next(next) { alive++; }
    ~link()
    {
        alive--;
        if (next)
            of->erase(next).value();
    }
    object_map<link> *of;
    std::uint64_t next;
};

void other_objects()
{
    {
        object_map<shape> shapes;
        shapes.insert_or_assign(1, std::make_unique<square>()).value();
        shapes.insert_or_assign(1, std::make_unique<square>()).value();
        EXPECT(at(shapes, 1).corners() == 4);
        object_map<const counted> constant;
        constant.insert_or_assign(1, fresh(1)).value();
        constant.compute(1, [](const counted *there) { return fresh(there->number + 1); }).value();
        EXPECT(at(constant, 1).number == 2);
    }
    EXPECT(alive == 0);
    object_map<link> links;
    for (std::uint64_t key = 1; key < 500; key++)
        links.insert_or_assign(key, std::make_unique<link>(&links, key + 1)).value();
    links.erase(1).value();
    for (unsigned i = 0; i < 500; i++)
        links.collect().value();
    EXPECT(links.size().value() == 0 && alive == 0);
}

// ---- many threads

void run_on(unsigned threads, const std::function<void(unsigned)> &work)
{
    std::vector<std::thread> all;
    for (unsigned i = 0; i < threads; i++)
        all.emplace_back(work, i);
    for (std::thread &one : all)
        one.join();
}

// Eight threads count by copies, put and erase others, let some expire, and read; one in a hundred times one renews the map.
void counts_through_renewals()
{
    constexpr unsigned threads = 8, keys = 16;
    samvolip::options options;
    options.room = 10;
    options.threads = 4;
    object_map<counted> map(options);
    std::atomic<std::uint64_t> expired{0}, erased{0}, put{0};
    run_on(threads, [&](unsigned number) {
        for (std::uint64_t i = 0; i < rounds; i++) {
            map.compute(i % keys, [](const counted *there) { return fresh(there ? there->number + 1 : 1); }).value();
            const std::uint64_t mine = 1000 * (number + 1) + i % 100;
            put += map.insert_or_assign(mine, fresh(i)).value();
            const auto pin = map.pin();
            for (unsigned other = 0; other < threads; other++)
                if (const counted *there = pin.get(1000 * (other + 1) + i % 100))
                    EXPECT(there->mark == 7 && there->number % 100 == i % 100);
            if (i % 3 == 0)
                erased += map.erase(1000 * (1 + i % threads) + i % 100).value();
            if (i % (rounds / 10 + 1) == number)
                expired += map.erase_if([](std::uint64_t key, const counted &there) { return key >= 1000 && there.number % 2; }).value();
            if (i % (rounds / 10 + 1) == 100 + number)
                map.renew(number * 100).value();
        }
    });
    std::uint64_t sum = 0;
    for (std::uint64_t key = 0; key < keys; key++)
        sum += at(map, key).number;
    EXPECT(sum == std::uint64_t{threads} * rounds && map.size().value() == keys + put - erased - expired);
    map.collect().value();
    EXPECT(map.object_figures()->waiting == 0 && static_cast<std::uint64_t>(alive) == map.size().value());
}

} // namespace

int main(int count, char **words)
{
    rounds = count > 1 ? static_cast<unsigned>(std::strtoul(words[1], nullptr, 10)) : rounds;
    for (auto test : {puts_and_gets, emplaces, erases, exchanges, computes, refusals, throws, walks,
                     moves, other_objects, counts_through_renewals}) {
        test();
        EXPECT(alive == 0);
    }
    std::printf("well\n");
    return 0;
}
