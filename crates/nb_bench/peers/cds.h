// What the two peers from libcds share. Both keep a node for each key, and hazard pointers tell when a removed node may be freed.
#pragma once
#include "workloads.h"
#include <cds/gc/hp.h>
#include <cds/init.h>

namespace load {
// A put stores into the node that is there, and makes one only where there is none. That is cheaper than libcds's `update`, which
// makes a node each time.
template <class Table> void store_or_insert(Table &table, uint64_t key, uint64_t number) {
    auto store = [number](auto &item) { std::atomic_ref<uint64_t>(item.second).store(number); };
    while (!table.find(key, store) && !table.insert(key, number)) {}
}

template <class Table> uint64_t load_from(Table &table, uint64_t key) {
    uint64_t found = 0;
    table.find(key, [&found](auto &item) { found = std::atomic_ref<uint64_t>(item.second).load(); });
    return found;
}

// A thread that may call.
struct InCds {
    InCds() { cds::threading::Manager::attachThread(); }
    ~InCds() { cds::threading::Manager::detachThread(); }
};

// libcds itself, and its hazard pointers for as many threads as the words ask for: by default they are for 100.
struct Library {
    struct Begun {
        Begun() { cds::Initialize(); }
        ~Begun() { cds::Terminate(); }
    } begun;
    cds::gc::HP pointers;
    Library(int argc, char **argv) : pointers(0, std::max(100, (argc > 2 ? atoi(argv[2]) : 1) + 2)) {}
};
} // namespace load
