// samvolip::map on many threads: more of them than have a seat of their own, renewals under load, loops beside writers, threads and
// maps that end in either order.
//     threads [ROUNDS]      how often each of the threads writes
#include "samvolip.hpp"

#include "../../c/tests/expect.h"

#include <algorithm>
#include <atomic>
#include <condition_variable>
#include <deque>
#include <functional>
#include <map>
#include <mutex>
#include <thread>

using samvolip::fault;
using samvolip::found;

namespace {

unsigned rounds = 100000;

// A thread that does what it is given, one thing after another.
class worker {
public:
    worker() : thread([this] { work(); }) {}
    ~worker() { end(); }

    // Has the thread do something, and waits for it.
    void make(std::function<void()> task)
    {
        std::unique_lock<std::mutex> held(lock);
        next = std::move(task);
        changed.notify_all();
        changed.wait(held, [this] { return !next; });
    }

    void end()
    {
        if (!thread.joinable())
            return;
        make([this] { is_ended = true; });
        thread.join();
    }

private:
    void work()
    {
        std::unique_lock<std::mutex> held(lock);
        while (!is_ended) {
            changed.wait(held, [this] { return bool(next); });
            next();
            next = nullptr;
            changed.notify_all();
        }
    }

    std::mutex lock;
    std::condition_variable changed;
    std::function<void()> next;
    bool is_ended = false;
    std::thread thread;
};

void run_on(unsigned threads, const std::function<void(unsigned)> &work)
{
    std::vector<std::thread> all;
    for (unsigned i = 0; i < threads; i++)
        all.emplace_back(work, i);
    for (std::thread &one : all)
        one.join();
}

samvolip::map opened(std::uint64_t room, std::uint32_t threads)
{
    samvolip::options options;
    options.room = room;
    options.threads = threads;
    return samvolip::map(options);
}

// ---- sums through renewals

// Eight threads add to the same keys, while keys of their own come and go, so that the map is renewed again and again. Each looks at
// what it wrote. Now and then one walks, within a walk, lists the map, or has it renewed.
void adds_through_renewals()
{
    constexpr unsigned threads = 8;
    constexpr std::uint64_t shared = 500, own = 1u << 20;
    samvolip::map map = opened(10, 4);
    std::vector<std::vector<std::uint64_t>> added(threads, std::vector<std::uint64_t>(shared));
    run_on(threads, [&](unsigned number) {
        std::uint64_t state = 88172645463325252u + number;
        for (std::uint64_t i = 0; i < rounds; i++) {
            state ^= state << 13;
            state ^= state >> 7;
            state ^= state << 17;
            const std::uint64_t key = state % shared, mine = own * (number + 1) + i;
            const found before = map.add(key, 1 + i % 3).value();
            added[number][key] += 1 + i % 3;
            EXPECT(map.get(key).value().value() >= before.value_or(0) + 1 + i % 3);
            EXPECT(map.insert_or_assign(mine, i).value() && (i < 50 || map.extract(mine - 50).value() == i - 50));
            if (i % (rounds / 4 + 1) != number)
                continue;
            std::uint64_t shown = 0;
            for (auto [at, there] : map) {
                EXPECT(at < shared ? there > 0 : at >= own && there < rounds);
                if (shown++ < 2)
                    for (const samvolip::entry &within : map)
                        EXPECT(within.key < shared || within.key >= own);
            }
            EXPECT(map.snapshot()->size() <= shared + 51 * threads && map.size().value() <= shared + 51 * threads);
            EXPECT(map.renew(number * 300).has_value());
        }
    });
    for (std::uint64_t key = 0; key < shared; key++) {
        std::uint64_t sum = 0;
        for (const auto &of : added)
            sum += of[key];
        EXPECT(map.get(key).value().value_or(0) == sum);
    }
    EXPECT(map.figures()->renewals >= 4 * threads && map.figures()->own_threads == 1);
}

// Some threads put, and others take all that there is by a clear: each key comes out once.
void clears_beside_writers()
{
    constexpr unsigned writers = 3;
    const std::uint64_t each = rounds / 4;
    samvolip::map map = opened(10, 2);
    std::atomic<unsigned> at_work{writers};
    std::vector<bool> seen(writers * each);
    auto take = [&](std::uint64_t key, std::uint64_t value) {
        EXPECT(value == key + 1 && !seen[key]);
        seen[key] = true;
    };
    run_on(writers + 1, [&](unsigned number) {
        if (number < writers) {
            for (std::uint64_t i = number; i < writers * each; i += writers)
                EXPECT(map.insert_or_assign(i, i + 1).value());
            at_work--;
        } else {
            while (at_work > 0)
                EXPECT(map.clear(take).has_value());
        }
    });
    EXPECT(map.clear(take).has_value() && map.size().value() == 0);
    EXPECT(std::count(seen.begin(), seen.end(), true) == std::ptrdiff_t(writers * each));
}

// Some threads add, and another erases what is even: each sum is what was erased and what is left.
void erases_beside_writers()
{
    constexpr unsigned writers = 3;
    samvolip::map map = opened(10, 2);
    std::atomic<unsigned> at_work{writers};
    std::uint64_t erased = 0;
    run_on(writers + 1, [&](unsigned number) {
        if (number < writers) {
            for (std::uint64_t i = 0; i < rounds; i++)
                EXPECT(map.add(i % 100, 1).has_value());
            at_work--;
            return;
        }
        while (at_work > 0) {
            std::map<std::uint64_t, std::uint64_t> said;
            const auto is_even = [&](std::uint64_t key, std::uint64_t sum) {
                said[key] = sum;
                return sum % 2 == 0 || said.erase(key) == 0;
            };
            EXPECT(map.erase_if(is_even).value() == said.size());
            for (auto [key, sum] : said)
                erased += sum;
        }
    });
    EXPECT(map.for_each([&](std::uint64_t, std::uint64_t sum) { erased += sum; }).value() <= 100);
    EXPECT(erased == writers * rounds);
}

// ---- threads

// Three hundred threads call at once, of which four have a seat of their own.
void serves_three_hundred()
{
    constexpr unsigned threads = 300;
    samvolip::map map = opened(10, 4);
    std::atomic<unsigned> arrived{0};
    run_on(threads, [&](unsigned number) {
        EXPECT(map.add(7, 1).has_value());
        arrived++;
        while (arrived < threads)
            std::this_thread::yield();
        for (std::uint64_t i = 0; i < 100; i++)
            EXPECT(map.add(7, 1).has_value() && map.insert_or_assign(1000 * (number + 1) + i, i).value());
    });
    EXPECT(map.get(7).value() == threads * 101u && map.size().value() == threads * 100u + 1);
}

// Threads come and go, more than have a seat: each gets one of its own after the other.
void lets_threads_come_and_go()
{
    samvolip::map map = opened(0, 3);
    for (unsigned i = 0; i < 200; i++)
        run_on(3, [&](unsigned) {
            EXPECT(map.add(7, 1).has_value());
            while (map.figures()->own_threads == 0) // each call tries to get one, but waits for nobody
                std::this_thread::yield();
        });
    EXPECT(map.figures()->own_threads == 1 && map.get(7).value() == 600u); // the seat of this thread
    map.leave();

    // a thread that shares gets a seat of its own once another has left
    worker first, second, third, fourth;
    for (worker *one : {&first, &second, &third, &fourth})
        one->make([&] { EXPECT(map.add(7, 1).has_value()); });
    fourth.make([&] { EXPECT(map.figures()->own_threads == 3); });
    first.make([&] { map.leave(); });
    second.end();
    third.make([&] { EXPECT(map.figures()->own_threads == 1); });
    for (worker *one : {&fourth, &first})
        one->make([&] { EXPECT(map.add(7, 1).has_value()); });
    EXPECT(map.figures()->own_threads == 3 && map.get(7).value() == 606u);
}

// A thread ends after the map was destroyed, or calls another map meanwhile.
void outlives_maps()
{
    worker one, two;
    for (unsigned i = 0; i < 40; i++) {
        auto map = std::make_unique<samvolip::map>(opened(i, 1 + i % 3));
        one.make([&] { EXPECT(map->add(7, 1).value() == std::nullopt); });
        if (i % 2)
            two.make([&] { EXPECT(map->add(7, 1).value() == 1u); });
        if (i % 3 == 0)
            EXPECT(map->contains(7).value());
        map.reset();
    }
    samvolip::map last;
    one.make([&] { EXPECT(last.add(7, 1).value() == std::nullopt); });
    EXPECT(last.get(7).value() == 1u);
}

// A map is destroyed on another thread than those that called it, which end at the same time.
void is_destroyed_elsewhere()
{
    for (unsigned i = 0; i < 50; i++) {
        auto map = std::make_unique<samvolip::map>();
        std::atomic<unsigned> called{0};
        std::vector<std::thread> all;
        for (unsigned caller = 0; caller < 4; caller++)
            all.emplace_back([&] {
                EXPECT(map->add(7, 1).has_value());
                called++;
            });
        std::thread last([&] {
            while (called < 4)
                std::this_thread::yield();
            map.reset();
        });
        for (std::thread &one : all)
            one.join();
        last.join();
    }
}

// Two threads call twenty maps by turns, and some of them are destroyed.
void calls_many_maps()
{
    std::deque<samvolip::map> maps(20);
    auto call_all = [&](std::uint64_t turn) {
        for (std::uint64_t i = 0; i < maps.size(); i++)
            EXPECT(maps[i].exchange(1, turn * 100 + i).value() == (turn ? found((turn - 1) * 100 + i) : found()));
        for (std::uint64_t i = 0; i < maps.size(); i++)
            EXPECT(maps[i].get(1).value() == turn * 100 + i);
    };
    worker other;
    for (std::uint64_t turn = 0; turn < 10; turn += 2) {
        call_all(turn);
        other.make([&] { call_all(turn + 1); });
    }
    while (maps.size() > 3) {
        maps.pop_front();
        for (const samvolip::map &one : maps)
            EXPECT(one.contains(1).value());
    }
}

// A walk is handed to another thread, which goes on with it.
void hands_a_walk_on()
{
    samvolip::map map;
    for (std::uint64_t i = 0; i < 1000; i++)
        EXPECT(map.insert_or_assign(i, i).value());
    samvolip::walk walk = map.walk().value();
    std::uint64_t shown = 0;
    for (; shown < 100; shown++)
        EXPECT(walk.next().value().has_value());
    std::thread([&shown, given = std::move(walk)]() mutable {
        while (given.next().value())
            shown++;
    }).join();
    EXPECT(shown == 1000);
}

// ---- calls as a thread ends

samvolip::map *late_map;

struct late {
    unsigned number = 0;
    ~late()
    {
        if (number)
            EXPECT(late_map->add(number, 1).has_value());
    }
};

thread_local late begun_before, begun_after;

// A destructor of a thread_local calls the map, whether it was there before the thread's first call or not; the seat comes back.
void is_called_by_destructors()
{
    samvolip::map map = opened(0, 1);
    late_map = &map;
    for (unsigned i = 0; i < 10; i++)
        std::thread([&] {
            begun_before.number = 1;
            EXPECT(map.add(3, 1).has_value());
            begun_after.number = 2;
        }).join();
    EXPECT(map.get(1).value() == 10u && map.get(2).value() == 10u && map.get(3).value() == 10u);
    EXPECT(map.figures()->own_threads == 1);
}

// A map of the whole program, and an object that looks at it as the program ends.
samvolip::map global;

struct closer {
    bool closes = false;
    ~closer()
    {
        if (!closes)
            return;
        EXPECT(global.add(7, 1).value() == 1u && global.size().value() == 1);
        std::puts("threads: well");
    }
} at_exit;

} // namespace

int main(int count, char **words)
{
    if (count > 1)
        rounds = unsigned(std::strtoul(words[1], nullptr, 10));
    adds_through_renewals();
    clears_beside_writers();
    erases_beside_writers();
    serves_three_hundred();
    lets_threads_come_and_go();
    outlives_maps();
    is_destroyed_elsewhere();
    calls_many_maps();
    hands_a_walk_on();
    is_called_by_destructors();
    EXPECT(global.add(7, 1).has_value());
    at_exit.closes = true;
    return 0;
}
