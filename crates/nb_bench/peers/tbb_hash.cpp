// oneTBB's concurrent_hash_map: a lock for each element and for buckets, reads and writes by accessors. The key is its hash.
#include "workloads.h"
#include <tbb/concurrent_hash_map.h>

struct Cheap {
    size_t hash(uint64_t key) const { return key; }
    bool equal(uint64_t a, uint64_t b) const { return a == b; }
};

struct Tbb {
    using Table = tbb::concurrent_hash_map<uint64_t, uint64_t, Cheap>;
    Table table;
    explicit Tbb(uint64_t size) { if (size > 4) table.rehash(size); }
    uint64_t get(uint64_t key) {
        Table::const_accessor found;
        return table.find(found, key) ? found->second : 0;
    }
    void put(uint64_t key, uint64_t number) {
        Table::accessor found;
        table.insert(found, key);
        found->second = number;
    }
    void remove(uint64_t key) { table.erase(key); }
};

int main(int argc, char **argv) { return load::run<Tbb>("tbb", argc, argv, 4); }
