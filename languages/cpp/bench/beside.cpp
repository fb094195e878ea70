// What a call takes beside other maps of C++: by one thread, and by four that call at once.
//     beside [KEYS [ROUNDS [CALLS]]]      prints a line for each call and map: nanoseconds a call of one thread, with keys in order and in
//                                         no order, and of one of four with keys in no order
// oneTBB's concurrent_hash_map and Boost's concurrent_flat_map are measured where their headers are (-ltbb); std's unordered_map stands
// behind a mutex, and for reads behind a shared_mutex, too. The keys are the numbers below KEYS, by default 65,536. A figure is the best
// of the rounds, which go by turns and go on through the keys; a round goes from the first thread's beginning to the last one's end.
#include "samvolip.hpp"

#include <algorithm>
#include <atomic>
#include <chrono>
#include <functional>
#include <mutex>
#include <shared_mutex>
#include <string>
#include <thread>
#include <unordered_map>
#if __has_include(<tbb/concurrent_hash_map.h>)
#include <tbb/concurrent_hash_map.h>
#define HAS_TBB
#endif
#if __has_include(<boost/unordered/concurrent_flat_map.hpp>)
#include <boost/unordered/concurrent_flat_map.hpp>
#define HAS_BOOST
#endif

namespace {

using number = std::uint64_t;
number keys = 65536;

struct ours {
    samvolip::map map;
    explicit ours(samvolip::keys kind) : map([kind] { samvolip::options made; made.keys = kind; return made; }()) {}
    number get(number key) { return map.get(key).value().value_or(0); }
    void put(number key, number to) { map.insert_or_assign(key, to).value(); }
    void add(number key) { map.add(key, 1).value(); }
};

// Reads have a lock of their own if Mutex is shared.
template <class Mutex, class Reading> struct locked {
    std::unordered_map<number, number> map;
    Mutex mutex;
    number get(number key)
    {
        Reading lock(mutex);
        const auto found = map.find(key);
        return found == map.end() ? 0 : found->second;
    }
    void put(number key, number to)
    {
        std::lock_guard<Mutex> lock(mutex);
        map.insert_or_assign(key, to);
    }
    void add(number key)
    {
        std::lock_guard<Mutex> lock(mutex);
        map[key]++;
    }
};

#ifdef HAS_TBB
struct of_tbb {
    using kind = tbb::concurrent_hash_map<number, number>;
    kind map;
    number get(number key)
    {
        kind::const_accessor found;
        return map.find(found, key) ? found->second : 0;
    }
    void put(number key, number to)
    {
        kind::accessor found;
        map.insert(found, key);
        found->second = to;
    }
    void add(number key)
    {
        kind::accessor found;
        map.insert(found, key);
        found->second++;
    }
};
#endif

#ifdef HAS_BOOST
struct of_boost {
    boost::concurrent_flat_map<number, number> map;
    number get(number key)
    {
        number found = 0;
        map.cvisit(key, [&](const auto &entry) { found = entry.second; });
        return found;
    }
    void put(number key, number to) { map.insert_or_assign(key, to); }
    void add(number key)
    {
        map.emplace_or_visit(key, 1, [](auto &entry) { entry.second++; });
    }
};
#endif

// Which keys a thread calls with: one after another, or by such steps that none is near the one before; each once before one comes again.
struct stretch {
    number from, calls, step;
};
constexpr number in_order = 1, in_no_order = 2654435761;

// Makes so many calls. They aren't inlined into the loop over the rounds, and each map has its own.
enum what { get, put, add };
template <what What, class Map> [[gnu::noinline]] number call(Map &map, const stretch &part)
{
    const number step = part.step % keys;
    number sum = 0, key = part.from % keys * step % keys;
    for (number i = 0; i < part.calls; i++) {
        if constexpr (What == get) sum += map.get(key);
        else if constexpr (What == put) map.put(key, i);
        else map.add(key);
        key += step;
        key -= key < keys ? 0 : keys;
    }
    return sum;
}

using calling = std::function<number(const stretch &)>;

// Nanoseconds a call of one thread, of so many that begin together.
double time_of(const calling &work, unsigned threads, const stretch &first)
{
    using clock = std::chrono::steady_clock;
    std::atomic<unsigned> arrived{0};
    std::vector<clock::time_point> begun(threads), ended(threads);
    std::vector<std::thread> all;
    std::atomic<number> kept{0};
    for (unsigned t = 0; t < threads; t++)
        all.emplace_back([&, t] {
            const stretch mine{first.from + t * keys / threads, first.calls, first.step};
            kept += work({mine.from, std::min<number>(keys, 10000), mine.step}); // the code is in the caches then, and few keys
            for (arrived++; arrived < threads;) std::this_thread::yield();
            begun[t] = clock::now();
            kept += work(mine);
            ended[t] = clock::now();
        });
    for (std::thread &thread : all) thread.join();
    const auto from = *std::min_element(begun.begin(), begun.end()), to = *std::max_element(ended.begin(), ended.end());
    return std::chrono::duration<double, std::nano>(to - from).count() / double(first.calls);
}

struct column {
    const char *name;
    unsigned threads;
    number step;
};
constexpr column columns[] = {{"in order", 1, in_order}, {"in no order", 1, in_no_order}, {"4 threads", 4, in_no_order}};

struct row {
    std::string name;
    calling calls;
    double best[std::size(columns)] = {1e9, 1e9, 1e9};
};

template <class Map> void rows_of(std::vector<row> &rows, const char *name, Map &map)
{
    for (number key = 0; key < keys; key++) map.put(key, key + 1);
    rows.push_back({std::string("get, ") + name, [&](const stretch &part) { return call<get>(map, part); }});
    rows.push_back({std::string("put, ") + name, [&](const stretch &part) { return call<put>(map, part); }});
    rows.push_back({std::string("add, ") + name, [&](const stretch &part) { return call<add>(map, part); }});
}

void print(const std::vector<row> &rows)
{
    std::printf("%-42s", "");
    for (const column &column : columns) std::printf(" %12s", column.name);
    std::printf("\n");
    for (const char *what : {"get", "put", "add"})
        for (const row &one : rows) {
            if (one.name.compare(0, 3, what) != 0) continue;
            std::printf("%-42s", one.name.c_str());
            for (const double best : one.best) std::printf(" %12.1f", best);
            std::printf("\n");
        }
}

} // namespace

int main(int count, char **words)
{
    if (count > 1) keys = std::max(1UL, std::strtoul(words[1], nullptr, 10));
    const unsigned long rounds = count > 2 ? std::strtoul(words[2], nullptr, 10) : 60;
    const number calls = count > 3 ? std::strtoul(words[3], nullptr, 10) : keys;
    std::vector<row> rows;
    ours secret(samvolip::keys::secret), plain(samvolip::keys::as_they_are);
    locked<std::mutex, std::lock_guard<std::mutex>> behind_mutex;
    locked<std::shared_mutex, std::shared_lock<std::shared_mutex>> behind_shared;
    rows_of(rows, "samvolip::map", secret);
    rows_of(rows, "samvolip::map, keys as they are", plain);
#ifdef HAS_TBB
    of_tbb tbb;
    rows_of(rows, "tbb::concurrent_hash_map", tbb);
#endif
#ifdef HAS_BOOST
    of_boost boost;
    rows_of(rows, "boost::concurrent_flat_map", boost);
#endif
    rows_of(rows, "std::unordered_map, a mutex", behind_mutex);
    rows_of(rows, "std::unordered_map, a shared_mutex", behind_shared);
    for (unsigned long i = 0; i < rounds; i++)
        for (row &one : rows)
            for (std::size_t c = 0; c < std::size(columns); c++)
                one.best[c] = std::min(one.best[c], time_of(one.calls, columns[c].threads, {i * calls, calls, columns[c].step}));
    print(rows);
    return 0;
}
