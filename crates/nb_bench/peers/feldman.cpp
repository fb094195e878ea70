// libcds's FeldmanHashMap: a tree of arrays, by the key's own bits from the lowest on. Where two keys meet in a cell, an array comes
// in its place. The first array has as many cells as the size asks for, or 256 by default; all others have 16.
#include "cds.h"
#include <cds/container/feldman_hashmap_hp.h>

struct Feldman {
    struct Traits : cds::container::feldman_hashmap::traits {
        struct compare {
            int operator()(uint64_t a, uint64_t b) const { return a < b ? -1 : a > b; }
        };
    };
    cds::container::FeldmanHashMap<cds::gc::HP, uint64_t, uint64_t, Traits> table;
    static size_t bits(uint64_t size) { return size <= 4 ? 8 : 63 - __builtin_clzll(size); }
    explicit Feldman(uint64_t size) : table(bits(size), 4) {}
    uint64_t get(uint64_t key) { return load::load_from(table, key); }
    void put(uint64_t key, uint64_t number) { load::store_or_insert(table, key, number); }
    void remove(uint64_t key) { table.erase(key); }
};

template <> struct load::InThread<Feldman> : load::InCds {};

int main(int argc, char **argv) {
    load::Library library(argc, argv);
    return load::run<Feldman>("feldman", argc, argv, 4);
}
