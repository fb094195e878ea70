// The workloads of nb_bench driven from C++, through the functions of samvolip.h: what a call through the library's boundary
// costs, beside the same call inside (crates/nb_bench).
//   PROG WORKLOAD THREADS SECONDS [--keys dense|spread|zipf]      prints lines   c WHAT THREADS OPS NANOSECONDS
// WORKLOAD is A, B, C, D or E.
#include "../../../crates/nb_bench/peers/workloads.h"
#include "samvolip.h"

#include <mutex>
#include <vector>

namespace {

// How many seats a map has: one for each thread and one for the thread that begins them, 8 at least.
unsigned seats_of_a_map = 8;

// A map whose threads take a seat each at their first call; all were split when it was made.
class Map {
    std::vector<samvolip_seat> seats;
    uint64_t number;
    unsigned taken = 0;
    std::mutex taking;
    static inline std::atomic<uint64_t> maps{0};

    samvolip_seat *seat() {
        thread_local uint64_t mine_of = UINT64_MAX;
        thread_local samvolip_seat *mine = nullptr;
        if (mine_of != number) {
            std::lock_guard<std::mutex> lock(taking);
            if (taken == seats.size()) abort();
            mine = &seats[taken++];
            mine_of = number;
        }
        return mine;
    }

public:
    explicit Map(uint64_t slots) : seats(seats_of_a_map, SAMVOLIP_SEAT_INIT), number(maps++) {
        samvolip_shape shape = samvolip_shape_for_keys(slots / 2, seats_of_a_map);
        if (samvolip_open(&shape, &seats[0])) abort();
        for (size_t i = 1; i < seats.size(); i++)
            if (samvolip_split(&seats[0], &seats[i])) abort();
    }
    ~Map() { for (auto &one : seats) samvolip_free(&one); }

    uint64_t get(uint64_t key) {
        uint64_t found = 0;
        samvolip_get(seat(), key, &found);
        return found;
    }
    void put(uint64_t key, uint64_t value) {
        if (samvolip_put(seat(), key, value, nullptr) < 0) abort();
    }
    void remove(uint64_t key) { samvolip_remove(seat(), key, nullptr); }
};

} // namespace

int main(int argc, char **argv) {
    if (argc > 2) seats_of_a_map = std::max(seats_of_a_map, unsigned(atoi(argv[2])) + 1);
    return load::run<Map>("c", argc, argv, 65536);
}
