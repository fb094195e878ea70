// The workloads of nb_bench on the map without an end, through samvolip_map.h.
//   PROG WORKLOAD THREADS SECONDS [OPTION..]      prints lines   endless WHAT THREADS OPS NANOSECONDS
// WORKLOAD is A to G. The environment's KEYS says what becomes of a key: 0 is mixed with a secret, 1 by samvolip_mix, 2 nothing.
#include "../../../crates/nb_bench/peers/workloads.h"
#include "samvolip_map.h"

namespace {

class Map {
    samvolip_map *map = nullptr;

public:
    explicit Map(uint64_t) {
        const char *keys = getenv("KEYS");
        samvolip_map_options options = SAMVOLIP_MAP_OPTIONS_INIT;
        options.keys = keys ? uint32_t(atoi(keys)) : 0;
        if (samvolip_map_open(&options, &map) < 0) abort();
    }
    Map(const Map &) = delete;
    Map &operator=(const Map &) = delete;
    ~Map() { samvolip_map_free(map); }

    uint64_t get(uint64_t key) {
        uint64_t found = 0;
        samvolip_map_get(map, key, &found);
        return found;
    }
    void put(uint64_t key, uint64_t value) {
        if (samvolip_map_put(map, key, value, nullptr) < 0) abort();
    }
    void remove(uint64_t key) { samvolip_map_remove(map, key, nullptr); }
};

} // namespace

int main(int argc, char **argv) { return load::run<Map>("endless", argc, argv, 65536); }
