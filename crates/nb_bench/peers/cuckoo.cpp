// libcuckoo's cuckoohash_map: each key has two buckets of four slots, and each call locks both. Keys are hashed by std::hash, which
// is the key itself.
#include "workloads.h"
#include <libcuckoo/cuckoohash_map.hh>

struct Cuckoo {
    libcuckoo::cuckoohash_map<uint64_t, uint64_t> table;
    explicit Cuckoo(uint64_t size) : table(size) {}
    uint64_t get(uint64_t key) {
        uint64_t found = 0;
        table.find(key, found);
        return found;
    }
    void put(uint64_t key, uint64_t number) { table.insert_or_assign(key, number); }
    void remove(uint64_t key) { table.erase(key); }
};

int main(int argc, char **argv) { return load::run<Cuckoo>("cuckoo", argc, argv, 4); }
