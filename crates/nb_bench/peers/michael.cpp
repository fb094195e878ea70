// libcds's MichaelHashMap: a fixed number of buckets, each a sorted list without locks. A bucket for each of the `size`; the key is
// its hash.
#include "cds.h"
#include <cds/container/michael_kvlist_hp.h>
#include <cds/container/michael_map.h>

struct Michael {
    struct Cheap {
        size_t operator()(uint64_t key) const { return key; }
    };
    struct ListTraits : cds::container::michael_list::traits {
        typedef std::less<uint64_t> less;
    };
    struct MapTraits : cds::container::michael_map::traits {
        typedef Cheap hash;
    };
    using List = cds::container::MichaelKVList<cds::gc::HP, uint64_t, uint64_t, ListTraits>;
    cds::container::MichaelHashMap<cds::gc::HP, List, MapTraits> table;
    explicit Michael(uint64_t size) : table(size, 1) {}
    uint64_t get(uint64_t key) { return load::load_from(table, key); }
    void put(uint64_t key, uint64_t number) { load::store_or_insert(table, key, number); }
    void remove(uint64_t key) { table.erase(key); }
};

template <> struct load::InThread<Michael> : load::InCds {};

int main(int argc, char **argv) {
    load::Library library(argc, argv);
    return load::run<Michael>("michael", argc, argv, 131072);
}
