// What C++ adds to a call of C: a loop that draws a key and calls with it, by a samvolip_seat and a samvolip::seat, by a samvolip_map
// and a samvolip::map.
//     calls [ROUNDS [CALLS]]      prints a line for each: the call, the caller, and the best and the middle round, in nanoseconds a call
// The rounds go by turns. A nanosecond is one of the thread's processor time. Keys aren't mixed.
#include "samvolip_seats.hpp"

#include <algorithm>
#include <ctime>

namespace {

constexpr std::uint64_t keys = 1024;

double now()
{
    timespec time;
    clock_gettime(CLOCK_THREAD_CPUTIME_ID, &time);
    return double(time.tv_sec) * 1e9 + double(time.tv_nsec);
}

// The calls of C, with answers as C++ has them.
template <class Handle, int (*get_of)(Handle *, std::uint64_t, std::uint64_t *),
          int (*add_of)(Handle *, std::uint64_t, std::uint64_t, std::uint64_t *)>
struct of_c {
    Handle *handle;
    samvolip::found get(std::uint64_t key)
    {
        std::uint64_t number;
        return get_of(handle, key, &number) > 0 ? samvolip::found(number) : samvolip::found();
    }
    samvolip::found add(std::uint64_t key)
    {
        std::uint64_t number;
        return add_of(handle, key, 1, &number) > 0 ? samvolip::found(number) : samvolip::found();
    }
};

using of_c_seat = of_c<samvolip_seat, samvolip_get, samvolip_add>;
using of_c_map = of_c<samvolip_map, samvolip_map_get, samvolip_map_add>;

template <class Caller> struct of_cpp {
    Caller &caller;
    samvolip::found get(std::uint64_t key) { return caller.get(key).value(); }
    samvolip::found add(std::uint64_t key) { return caller.add(key, 1).value(); }
};

// One turn draws a number by splitmix64. The functions aren't inlined, so that a simulator tells them apart.
template <bool Adds, class Caller> [[gnu::noinline]] double call_all(Caller caller, std::uint64_t calls)
{
    std::uint64_t state = 1, sum = 0;
    const double begun = now();
    for (std::uint64_t i = 0; i < calls; i++) {
        std::uint64_t drawn = state += 0x9e3779b97f4a7c15;
        drawn = (drawn ^ (drawn >> 30)) * 0xbf58476d1ce4e5b9;
        drawn = (drawn ^ (drawn >> 27)) * 0x94d049bb133111eb;
        const std::uint64_t key = (drawn ^ (drawn >> 31)) % keys;
        const samvolip::found found = Adds ? caller.add(key) : caller.get(key);
        if (found)
            sum += *found;
    }
    const double took = (now() - begun) / double(calls);
    if (sum == 0 && calls > 100)
        std::abort();
    return took;
}

struct measured {
    const char *name;
    std::vector<double> times;
};

template <class Caller> void measure(measured *both, Caller caller, std::uint64_t calls)
{
    both[0].times.push_back(call_all<false>(caller, calls));
    both[1].times.push_back(call_all<true>(caller, calls));
}

} // namespace

int main(int count, char **words)
{
    const unsigned long rounds = count > 1 ? std::strtoul(words[1], nullptr, 10) : 61;
    const std::uint64_t calls = count > 2 ? std::strtoul(words[2], nullptr, 10) : 500000;
    samvolip::options options;
    options.keys = samvolip::keys::as_they_are;
    samvolip::map map(options);
    samvolip::seat seat = samvolip::seat::open({{11}, 1, 4, 4, UINT32_MAX, 8}).value();
    for (std::uint64_t key = 0; key < keys; key++) {
        seat.add(key, 1).value();
        map.add(key, 1).value();
    }
    measured all[] = {{"get samvolip_seat", {}},  {"add samvolip_seat", {}},  {"get samvolip::seat", {}}, {"add samvolip::seat", {}},
                      {"get samvolip_map", {}}, {"add samvolip_map", {}}, {"get samvolip::map", {}},  {"add samvolip::map", {}}};
    for (unsigned long i = 0; i < rounds; i++) {
        measure(all, of_c_seat{seat.native_handle()}, calls);
        measure(all + 2, of_cpp<samvolip::seat>{seat}, calls);
        measure(all + 4, of_c_map{map.native_handle()}, calls);
        measure(all + 6, of_cpp<samvolip::map>{map}, calls);
    }
    for (measured &one : all) {
        std::sort(one.times.begin(), one.times.end());
        if (rounds > 0)
            std::printf("%s %.2f %.2f\n", one.name, one.times[0], one.times[rounds / 2]);
    }
    return 0;
}
