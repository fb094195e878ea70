// The workloads of nb_bench for peers in C++: the same keys, the same random numbers, the same lines of output.
//   PROG WORKLOAD THREADS SECONDS [--keys dense|spread|zipf] [--live N] [--calls N]
// Each line is   NAME WHAT THREADS OPS NUMBER  , where docs/speed.md says what is measured and NUMBER is in nanoseconds or bytes.
// A peer is a class with  get(key), which answers 0 where there is no number, put(key, number), remove(key), and a constructor of
// one size. Where its put answers a bool, false says that the map is full. Where a library has to know the threads that call it,
// load::InThread<Peer> makes its thread known, and is made in each of them.
#pragma once
#include <algorithm>
#include <array>
#include <atomic>
#include <chrono>
#include <cstdint>
#include <cstdio>
#include <cstdlib>
#include <cstring>
#include <memory>
#include <thread>
#include <type_traits>
#include <utility>
#include <vector>

namespace load {
constexpr uint64_t BATCH = 1024, ONE_PLACE = 4242;

// How many keys there are in A, B, C, E and G, in D and in F.
constexpr uint64_t KEYS = 65536, PUTS = 32768, MANY = 1000000;

// How many draws by zipf's law are made before the clock starts.
constexpr uint64_t SAMPLES = 1 << 20;

// In G, how often each key's place in the map is taken by a new key in a round.
constexpr uint64_t TURNS = 8;

inline uint64_t scattered(uint64_t z) {
    z = (z ^ (z >> 30)) * 0xbf58476d1ce4e5b9u;
    z = (z ^ (z >> 27)) * 0x94d049bb133111ebu;
    return z ^ (z >> 31);
}

struct Random {
    uint64_t state;
    explicit Random(uint64_t seed) : state(scattered(seed + 1)) {}
    uint64_t draw() { state += 0x9e3779b97f4a7c15u; return scattered(state); }
};

inline bool spread = false;
inline uint64_t spread_key(uint64_t place) { return scattered(place) >> 1; }
inline uint64_t key_of(uint64_t place) { return spread ? spread_key(place) : place; }

// What is to be run.
struct Options {
    char workload = 'A';
    unsigned threads = 1;
    uint64_t time = 0;                // nanoseconds
    uint64_t live = KEYS;             // how many keys there are
    uint64_t calls = UINT64_MAX;      // how many calls each thread makes at most
    bool zipf = false;
};

// A class that makes its thread known to a peer's library, where that has to know it.
template <class Map> struct InThread {
    InThread() {}
    ~InThread() {}
};

// Puts a number, and answers whether there was room for it.
template <class Map> bool put_in(Map &map, uint64_t key, uint64_t number) {
    if constexpr (std::is_same_v<decltype(map.put(key, number)), bool>) return map.put(key, number);
    else {
        map.put(key, number);
        return true;
    }
}

// Puts a number where there is room.
template <class Map> void must_put(Map &map, uint64_t key, uint64_t number) {
    if (!put_in(map, key, number)) {
        fprintf(stderr, "the map is full\n");
        exit(4);
    }
}

template <class Places> void shuffle(Places &places) {
    Random random(999);
    for (uint64_t i = places.size(); i-- > 1;) std::swap(places[i], places[random.draw() % (i + 1)]);
}

inline std::vector<uint64_t> shuffled(uint64_t count) {
    std::vector<uint64_t> places(count);
    for (uint64_t i = 0; i < count; i++) places[i] = i;
    shuffle(places);
    return places;
}

// The place of the key of a rank: by turns one from the first half, whose keys have numbers, and one from the second half.
inline uint64_t ranked(const std::vector<uint64_t> &places, uint64_t rank) {
    return places[rank % 2 == 0 ? rank / 2 : places.size() - 1 - rank / 2];
}

// Draws by zipf's law with exponent 1, in an order that looks random: the key of rank r, from 1 on, is there in proportion to 1 / r.
inline std::vector<uint32_t> samples_of(const std::vector<uint64_t> &places) {
    constexpr uint64_t ONE = uint64_t(1) << 36;
    uint64_t all = 0, sum = 0;
    for (uint64_t rank = 0; rank < places.size(); rank++) all += ONE / (rank + 1);
    std::vector<uint32_t> samples;
    samples.reserve(SAMPLES);
    for (uint64_t rank = 0; rank < places.size(); rank++) {
        sum += ONE / (rank + 1);
        samples.resize(SAMPLES * sum / all, uint32_t(ranked(places, rank)));
    }
    shuffle(samples);
    return samples;
}

using Clock = std::chrono::steady_clock;
inline uint64_t since(Clock::time_point start) {
    return std::chrono::duration_cast<std::chrono::nanoseconds>(Clock::now() - start).count();
}

// Each thread writes in its own lines of the cache.
struct alignas(128) Tally { uint64_t calls = 0, nanoseconds = 0, sum = 0, full = 0; };

// What all threads counted, who worked at the same time.
inline Tally together(const std::vector<Tally> &tallies) {
    Tally all;
    for (auto &t : tallies) {
        all.calls += t.calls;
        all.nanoseconds = std::max(all.nanoseconds, t.nanoseconds);
        all.sum += t.sum;
        all.full |= t.full;
    }
    if (all.sum == 1) fprintf(stderr, "odd\n");
    return all;
}

// Does work(number, tally) in each of the threads, and answers what they counted. They begin at the same time.
template <class Map, class Work> Tally all_work(unsigned threads, Work work) {
    std::atomic<unsigned> arrived{0};
    std::vector<Tally> tallies(threads);
    std::vector<std::thread> all;
    for (unsigned t = 0; t < threads; t++)
        all.emplace_back([&, t] {
            InThread<Map> here;
            arrived++;
            for (int look = 0; arrived < threads; look++) if (look > 2000) std::this_thread::yield();
            work(t, tallies[t]);
        });
    for (auto &thread : all) thread.join();
    return together(tallies);
}

// ---- A, B, C and E: calls at keys that are drawn, for a while.

// Of a hundred calls, how many are gets and puts; the others are removals.
struct Mix { uint64_t gets, puts; };

inline Mix mix_of(char workload) {
    if (workload == 'B') return {90, 9};
    if (workload == 'C') return {50, 25};
    return {100, 0};
}

// Makes the call that was drawn, at a key; answers what it read.
template <class Map> inline uint64_t call_drawn(Map &map, uint64_t key, uint64_t drawn, Mix mix) {
    uint64_t percent = (drawn >> 32) * 100 >> 32;
    if (percent < mix.gets) return map.get(key);
    if (percent < mix.gets + mix.puts) must_put(map, key, drawn >> 32);
    else map.remove(key);
    return 0;
}

// A batch of calls at keys of which each is as likely. Each spacing has a loop of its own, which doesn't ask for it.
template <bool SPREAD, class Map>
__attribute__((noinline)) uint64_t draw_batch(Map &map, Random &random, Mix mix, uint64_t live) {
    uint64_t sum = 0;
    Random own = random;
    for (uint64_t i = 0; i < BATCH; i++) {
        uint64_t drawn = own.draw(), place = (drawn & UINT32_MAX) * live >> 32;
        sum += call_drawn(map, SPREAD ? spread_key(place) : place, drawn, mix);
    }
    random = own;
    return sum;
}

// A batch of calls at dense keys that were drawn before.
template <class Map> __attribute__((noinline)) uint64_t sample_batch(Map &map, Random &random, Mix mix, const uint32_t *sample) {
    uint64_t sum = 0;
    Random own = random;
    for (uint64_t i = 0; i < BATCH; i++) sum += call_drawn(map, sample[i], own.draw(), mix);
    random = own;
    return sum;
}

template <class Map> __attribute__((noinline)) void put_batch(Map &map) {
    uint64_t key = key_of(ONE_PLACE);
    for (uint64_t i = 0; i < BATCH; i++) must_put(map, key, i % 2);
}

// What a thread draws: its random numbers, and at which of the batches of samples it is.
struct Draws {
    Random random;
    uint64_t sample;
};

template <class Map>
Tally call_on(Map &map, const Options &given, const std::vector<uint32_t> &samples, Draws &draws, uint64_t time, uint64_t batches) {
    Tally tally;
    Mix mix = mix_of(given.workload);
    auto start = Clock::now();
    for (uint64_t i = 0; i < batches; i++) {
        if (given.workload == 'E') put_batch(map);
        else if (given.zipf) {
            tally.sum += sample_batch(map, draws.random, mix, &samples[draws.sample]);
            draws.sample = (draws.sample + BATCH) % SAMPLES;
        } else if (spread) tally.sum += draw_batch<true>(map, draws.random, mix, given.live);
        else tally.sum += draw_batch<false>(map, draws.random, mix, given.live);
        tally.calls += BATCH;
        tally.nanoseconds = since(start);
        if (tally.nanoseconds >= time) break;
    }
    return tally;
}

inline uint64_t batches_of(uint64_t calls) { return calls / BATCH + (calls % BATCH != 0); }

// The slots of a table that has two for each key, and more by the next power of two.
inline uint64_t room_for(uint64_t keys) {
    uint64_t slots = 1;
    while (slots < 2 * keys) slots *= 2;
    return slots;
}

template <class Map> void timed(const char *name, const Options &given) {
    auto map = std::make_unique<Map>(room_for(given.live));
    auto places = shuffled(given.live);
    for (uint64_t i = 0; i < given.live / 2; i++) must_put(*map, key_of(places[i]), places[i]);
    std::vector<uint32_t> samples;
    if (given.zipf) samples = samples_of(places);
    uint64_t batches = batches_of(given.calls);
    std::vector<Tally> tallies(given.threads);
    std::vector<std::thread> all;
    for (unsigned t = 0; t < given.threads; t++)
        all.emplace_back([&, t] {
            InThread<Map> here;
            Draws draws{Random(t), SAMPLES / BATCH * t / given.threads * BATCH};
            call_on(*map, given, samples, draws, given.time / 10, batches / 10);
            tallies[t] = call_on(*map, given, samples, draws, given.time, batches);
        });
    for (auto &thread : all) thread.join();
    Tally sum = together(tallies);
    printf("%s %c %u %lu %lu\n", name, given.workload, given.threads, sum.calls, sum.nanoseconds);
}

// ---- D and F: calls at all keys, each thread at its part of them.

enum class Pass { puts, gets, longest_put, timed_puts };

// What a thread measures of its part of the places: how long its calls take, or the longest of its puts, or the time of each put.
template <class Map>
uint64_t pass_on(Map &map, Pass pass, const uint64_t *place, const uint64_t *end, Tally &tally, uint64_t *times) {
    auto start = Clock::now();
    uint64_t longest = 0;
    switch (pass) {
    case Pass::puts:
        for (; place < end; place++) must_put(map, key_of(*place), *place);
        break;
    case Pass::gets:
        for (; place < end; place++) tally.sum += map.get(key_of(*place));
        break;
    case Pass::longest_put:
        for (; place < end; place++) {
            auto before = Clock::now();
            must_put(map, key_of(*place), *place);
            longest = std::max(longest, since(before));
        }
        return longest;
    case Pass::timed_puts:
        for (; place < end; place++) {
            auto before = Clock::now();
            must_put(map, key_of(*place), *place);
            *times++ = since(before);
        }
    }
    return since(start);
}

// What the slowest thread measures. The time of each put, where they are timed, goes to `times`, which has one for each place. Gets
// have to find the number of each key, which is its place (`limit` answers one more).
template <class Map>
uint64_t all_pass(Map &map, Pass pass, unsigned threads, const std::vector<uint64_t> &places, uint64_t *times = nullptr) {
    size_t size = (places.size() + threads - 1) / threads;
    Tally all = all_work<Map>(threads, [&](unsigned t, Tally &tally) {
        size_t first = std::min(places.size(), t * size), end = std::min(places.size(), first + size);
        const uint64_t *place = places.data();
        tally.nanoseconds = pass_on(map, pass, place + first, place + end, tally, times ? times + first : nullptr);
    });
    uint64_t count = places.size(), wanted = count * (count - 1) / 2;
    if (pass == Pass::gets && all.sum != wanted && all.sum != wanted + count) {
        fprintf(stderr, "the sum isn't what was put\n");
        exit(2);
    }
    return all.nanoseconds;
}

// The time that so many thousandths of these sorted times are within.
inline uint64_t within(const std::vector<uint64_t> &times, uint64_t thousandths) {
    return times[std::min(times.size() * thousandths / 1000, times.size() - 1)];
}

// A round of D: how long all puts take in a new map, and in another one how long a put takes.
template <class Map>
std::array<uint64_t, 5> grow_once(const Options &given, const std::vector<uint64_t> &places, uint64_t slots) {
    auto map = std::make_unique<Map>(slots);
    uint64_t whole = all_pass(*map, Pass::puts, given.threads, places);
    map = std::make_unique<Map>(slots);
    std::vector<uint64_t> times(places.size());
    all_pass(*map, Pass::timed_puts, given.threads, places, times.data());
    std::sort(times.begin(), times.end());
    return {whole, within(times, 500), within(times, 990), within(times, 999), within(times, 1000)};
}

// The middle time of many rounds, for each of their times.
template <class Map> void growth(const char *name, const Options &given, uint64_t slots) {
    auto places = shuffled(given.live);
    std::array<std::vector<uint64_t>, 5> times;
    uint64_t rounds = given.calls / given.live + (given.calls % given.live != 0);
    auto start = Clock::now();
    do {
        auto round = grow_once<Map>(given, places, slots);
        for (int which = 0; which < 5; which++) times[which].push_back(round[which]);
    } while (times[0].size() < rounds && since(start) < given.time);
    const char *names[] = {"D", "p50", "p99", "p99.9", "max"};
    for (int which = 0; which < 5; which++) {
        std::sort(times[which].begin(), times[which].end());
        uint64_t middle = times[which][times[which].size() / 2];
        printf("%s %s %u %lu %lu\n", name, names[which], given.threads, which == 0 ? given.live : 1, middle);
    }
}

// The bytes of this process that are in memory, as Linux tells it; 0 where it doesn't.
inline uint64_t resident() {
    unsigned long whole = 0, here = 0;
    if (FILE *file = fopen("/proc/self/statm", "r")) {
        if (fscanf(file, "%lu %lu", &whole, &here) != 2) here = 0;
        fclose(file);
    }
    return uint64_t(here) * 4096;
}

// The shortest times of maps of all keys, each made with `slots` slots, and what memory the first of them took.
template <class Map> void fill(const char *name, const Options &given, uint64_t slots) {
    auto places = shuffled(given.live);
    uint64_t make = UINT64_MAX, filled = UINT64_MAX, read = UINT64_MAX, longest = UINT64_MAX, memory = 0;
    uint64_t base = resident();
    auto start = Clock::now();
    for (bool first = true; first || since(start) < given.time; first = false) {
        auto before = Clock::now();
        auto map = std::make_unique<Map>(slots);
        make = std::min(make, since(before));
        filled = std::min(filled, all_pass(*map, Pass::puts, given.threads, places));
        if (first) memory = resident() - base;
        read = std::min(read, all_pass(*map, Pass::gets, given.threads, places));
        map = std::make_unique<Map>(slots);
        longest = std::min(longest, all_pass(*map, Pass::longest_put, given.threads, places));
    }
    printf("%s make %u 1 %lu\n%s fill %u %lu %lu\n", name, given.threads, make, name, given.threads, given.live, filled);
    printf("%s read %u %lu %lu\n%s longest %u 1 %lu\n", name, given.threads, given.live, read, name, given.threads, longest);
    if (base) printf("%s memory %u %lu %lu\n", name, given.threads, given.live, memory);
}

// ---- G: keys come and go.

// Each thread of T has a T-th of the keys, every T-th number from its own on. In a step it puts its next key, and takes out its
// oldest one.
template <class Map> Tally churn_once(const Options &given, uint64_t slots) {
    uint64_t threads = given.threads, part = std::max<uint64_t>(1, given.live / threads);
    uint64_t steps = given.calls == UINT64_MAX ? TURNS * part : given.calls / 2 + given.calls % 2;
    auto map = std::make_unique<Map>(slots);
    for (uint64_t place = 0; place < part * threads; place++) must_put(*map, key_of(place), place & UINT32_MAX);
    return all_work<Map>(given.threads, [&](unsigned t, Tally &tally) {
        auto start = Clock::now();
        uint64_t done = 0;
        for (; done < steps; done++) {
            uint64_t place = (part + done) * threads + t;
            if (!put_in(*map, key_of(place), place & UINT32_MAX)) {
                tally.full = 1;
                break;
            }
            map->remove(key_of(done * threads + t));
        }
        tally.calls = 2 * done;
        tally.nanoseconds = since(start);
    });
}

// The round of middle time of many; or the first that found the map full, with the word `full` at the end of its line.
template <class Map> void churn(const char *name, const Options &given, uint64_t slots) {
    std::vector<std::pair<uint64_t, uint64_t>> rounds;
    auto start = Clock::now();
    do {
        Tally round = churn_once<Map>(given, slots);
        if (round.full) {
            printf("%s G %u %lu %lu full\n", name, given.threads, round.calls, round.nanoseconds);
            return;
        }
        rounds.emplace_back(round.nanoseconds, round.calls);
    } while (since(start) < given.time);
    std::sort(rounds.begin(), rounds.end());
    auto [nanoseconds, calls] = rounds[rounds.size() / 2];
    printf("%s G %u %lu %lu\n", name, given.threads, calls, nanoseconds);
}

// ---- The words.

inline int wrong_words() {
    fprintf(stderr, "PROG A|B|C|D|E|F|G THREADS SECONDS [--keys dense|spread|zipf] [--live N] [--calls N]\n");
    return 3;
}

// Reads the words; false where they are wrong.
inline bool read_words(int argc, char **argv, Options &given) {
    if (argc < 4 || argc % 2 || strlen(argv[1]) != 1 || !strchr("ABCDEFG", argv[1][0])) return false;
    given.workload = argv[1][0];
    given.threads = unsigned(atoi(argv[2]));
    given.time = uint64_t(atof(argv[3]) * 1e9);
    given.live = given.workload == 'D' ? PUTS : given.workload == 'F' ? MANY : KEYS;
    for (int i = 4; i < argc; i += 2) {
        const char *option = argv[i], *word = argv[i + 1];
        if (!strcmp(option, "--live")) given.live = strtoull(word, nullptr, 10);
        else if (!strcmp(option, "--calls")) given.calls = strtoull(word, nullptr, 10);
        else if (!strcmp(option, "--keys") && !strcmp(word, "spread")) spread = true;
        else if (!strcmp(option, "--keys") && !strcmp(word, "zipf")) given.zipf = true;
        else if (strcmp(option, "--keys") || strcmp(word, "dense")) return false;
    }
    return given.threads > 0 && given.live > 0 && given.live <= UINT32_MAX;
}

// What a removed key leaves: nothing, or its slot, which stays its own.
enum class Removed { leaves_nothing, keeps_its_slot };

// `slots` is the size that a map is made with in D, if there are as many keys as by default. A map that doesn't begin with four is
// made with twice as many as there are keys in F, and with more keys in D. In G each map is made with twice as many as there are
// keys at any time, or ever where removed keys keep their slots.
template <class Map> int run(const char *name, int argc, char **argv, uint64_t slots, Removed removed = Removed::leaves_nothing) {
    Options given;
    if (!read_words(argc, argv, given)) return wrong_words();
    InThread<Map> here;
    bool grows = slots <= 4;
    uint64_t ever = removed == Removed::keeps_its_slot ? (TURNS + 1) * given.live : given.live;
    if (given.workload == 'D') growth<Map>(name, given, grows || given.live <= PUTS ? slots : room_for(given.live));
    else if (given.workload == 'F') fill<Map>(name, given, grows ? slots : room_for(given.live));
    else if (given.workload == 'G') churn<Map>(name, given, room_for(ever));
    else timed<Map>(name, given);
    return 0;
}
} // namespace load
