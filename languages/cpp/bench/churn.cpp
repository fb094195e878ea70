// Objects that come and go, and how many of them are freed.
//
//     churn [OBJECTS [LIVE [THREADS]]]          10^6 objects, 10^5 keys and 8 threads by default
//     churn costs [ROUNDS [CALLS]]              what single calls cost
//
// Each thread puts objects at keys in no order, and erases one now and then; and gets two objects under a pin each time. Two more threads
// get a hundred objects under each of their pins. What is got has to be whole. One thread has the map renewed meanwhile. After each tenth
// it prints how many objects were made, how many are in the map, how many were seen to wait, and how much memory there is, which has to
// stay flat; then none waits. At the end each object was freed once.
#include "samvolip_objects.hpp"

#include "../../c/tests/expect.h"

#include <atomic>
#include <chrono>
#include <cstring>
#include <ctime>
#include <thread>

namespace {

std::atomic<std::uint64_t> made{0}, freed{0};

// An object that tells whether it is whole.
struct object {
    explicit object(std::uint64_t key) noexcept : key(key), check(~key) { made.fetch_add(1, std::memory_order_relaxed); }
    ~object()
    {
        EXPECT(check == ~key); // not twice
        check = key;
        freed.fetch_add(1, std::memory_order_relaxed);
    }
    object(const object &) = delete;
    object &operator=(const object &) = delete;

    std::uint64_t key, check, more[4] = {};
};

using map = samvolip::object_map<object>;

std::uint64_t next(std::uint64_t &state)
{
    state ^= state << 13;
    state ^= state >> 7;
    return state ^= state << 17;
}

void churn(map &objects, std::uint64_t count, std::uint64_t live, std::uint64_t number)
{
    std::uint64_t state = 88172645463325252u + number * 0x9e3779b97f4a7c15u;
    for (std::uint64_t i = 0; i < count; i++) {
        const std::uint64_t key = next(state) % live;
        objects.insert_or_assign(key, std::make_unique<object>(key)).value();
        if (i % 16 == 0)
            objects.erase(next(state) % live).value();
        const auto pin = objects.pin();
        for (std::uint64_t other : {next(state) % live, key})
            if (const object *there = pin.get(other))
                EXPECT(there->key == other && there->check == ~other);
    }
}

void read(const map &objects, std::uint64_t live, std::uint64_t number, const std::atomic<bool> &is_over)
{
    std::uint64_t state = number;
    while (!is_over) {
        const object *seen[100];
        const auto pin = objects.pin();
        for (const object *&one : seen)
            one = pin.get(next(state) % live);
        for (const object *one : seen)
            EXPECT(!one || one->check == ~one->key);
    }
}

void renew(map &objects, std::atomic<std::uint64_t> &most, const std::atomic<bool> &is_over)
{
    while (!is_over) {
        objects.renew().value();
        const std::uint64_t waiting = objects.object_figures().value().waiting;
        most = waiting > most ? waiting : std::uint64_t{most};
        std::this_thread::sleep_for(std::chrono::milliseconds(IS_SANITIZED ? 5 : 100));
    }
}

void run_part(map &objects, std::uint64_t count, std::uint64_t live, unsigned threads, unsigned part)
{
    std::vector<std::thread> writers, readers;
    std::atomic<bool> is_written{false};
    for (unsigned i = 0; i < threads; i++)
        writers.emplace_back([&, i] { churn(objects, count / threads, live, part * threads + i + 1); });
    for (unsigned i = 1; i <= 2; i++)
        readers.emplace_back([&, i] { read(objects, live, i, is_written); });
    for (std::thread &one : writers)
        one.join();
    is_written = true;
    for (std::thread &one : readers)
        one.join();
    objects.collect().value();
}

unsigned long long plain(std::uint64_t number) { return number; }

void run(std::uint64_t count, std::uint64_t live, unsigned threads)
{
    {
        map objects;
        std::atomic<bool> is_over{false};
        std::atomic<std::uint64_t> waited{0};
        std::thread renewer([&] { renew(objects, waited, is_over); });
        const auto began = std::chrono::steady_clock::now();
        double first = 0, most_waited = 0;
        for (unsigned part = 0; part < 10; part++) {
            run_part(objects, count / 10, live, threads, part);
            const double present = expect_mebibytes().present;
            const std::uint64_t waiting = waited.exchange(0);
            std::printf("%3u %%: %llu made, %llu live, at most %llu waited, %.1f MiB\n", 10 * part + 10, plain(made),
                        plain(objects.size().value()), plain(waiting), present);
            EXPECT(objects.object_figures().value().waiting == 0); // nobody pins, and all threads have ended
            first = part == 2 ? present : first;
            most_waited = double(waiting) > most_waited ? double(waiting) : most_waited;
            // a renewal has two tables, and a thread that is preempted while it pins keeps what is retired meanwhile
            EXPECT(part < 3 || present <= first * 1.25 + 32 + most_waited * 1e-4);
        }
        is_over = true;
        renewer.join();
        const std::chrono::duration<double> took = std::chrono::steady_clock::now() - began;
        std::printf("%.1f seconds, %.0f s of processor, %llu renewals\n", took.count(), double(std::clock()) / CLOCKS_PER_SEC,
                    plain(objects.figures().value().renewals));
    }
    EXPECT(made == freed);
    std::printf("%llu made, %llu freed\n", plain(made), plain(freed));
}

// ---- costs

double now()
{
    timespec at;
    clock_gettime(CLOCK_THREAD_CPUTIME_ID, &at);
    return 1e9 * double(at.tv_sec) + double(at.tv_nsec);
}

// The least processor time of a call, in nanoseconds, of some rounds of so many.
template <class Call> void cost(const char *name, std::uint64_t rounds, std::uint64_t calls, Call &&call)
{
    double least = 1e300;
    for (std::uint64_t round = 0; round < rounds; round++) {
        const double began = now();
        for (std::uint64_t i = 0; i < calls; i++)
            call((i * 389) % 1024);
        const double took = (now() - began) / double(calls);
        least = took < least ? took : least;
    }
    std::printf("%-50s %6.1f\n", name, least);
}

void costs(std::uint64_t rounds, std::uint64_t calls)
{
    samvolip::options options;
    options.keys = samvolip::keys::mixed;
    map objects(options);
    samvolip_map *const native = objects.native_handle();
    for (std::uint64_t key = 0; key < 1024; key++)
        objects.insert_or_assign(key, std::make_unique<object>(key)).value();
    std::uint64_t number = 0, sum = 0;
    cost("nothing", rounds, calls, [&](std::uint64_t key) { sum += key; });
    cost("samvolip_map_pin and unpin", rounds, calls, [&](std::uint64_t) { samvolip_map_pin(native), samvolip_map_unpin(native); });
    cost("samvolip_map_get", rounds, calls, [&](std::uint64_t key) { samvolip_map_get(native, key, &number); });
    cost("a pin, a get and what it reads, each time", rounds, calls, [&](std::uint64_t key) {
        const auto pin = objects.pin();
        sum += pin.get(key)->key;
    });
    {
        const auto pin = objects.pin();
        cost("a get and what it reads, under one pin", rounds, calls, [&](std::uint64_t key) { sum += pin.get(key)->key; });
    }
    cost("new and delete", rounds, calls, [&](std::uint64_t key) { std::make_unique<object>(key); });
    cost("new, and a put over what is there", rounds, calls,
         [&](std::uint64_t key) { objects.insert_or_assign(key, std::make_unique<object>(key)).value(); });
    samvolip::map numbers(options);
    for (std::uint64_t key = 0; key < 1024; key++)
        numbers.insert_or_assign(key, key).value();
    cost("samvolip_map_put of a number", rounds, calls,
         [&](std::uint64_t key) { samvolip_map_put(numbers.native_handle(), key, ++sum, &number); });
}

} // namespace

int main(int count, char **words)
{
    const auto word = [&](int i, std::uint64_t other) { return count > i ? std::strtoull(words[i], nullptr, 10) : other; };
    if (count > 1 && std::strcmp(words[1], "costs") == 0)
        costs(word(2, 50), word(3, 100000));
    else
        run(word(1, 1000000), word(2, 100000), unsigned(word(3, 8)));
    return 0;
}
