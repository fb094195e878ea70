// The limit: the same design in one fixed table. Flat slots of 16 bytes, a word for the key and one for the number, both
// atomic; linear probing from the key, masked; no growth, no count of keys, nothing that a proof asks for.
#include "workloads.h"

struct Limit {
    static constexpr uint64_t EMPTY = 0, ABSENT = 0;
    struct Slot { std::atomic<uint64_t> key, number; };
    uint64_t mask;
    Slot *slots;

    explicit Limit(uint64_t size) : mask(size - 1), slots(static_cast<Slot *>(aligned_alloc(64, size * sizeof(Slot)))) {
        memset(static_cast<void *>(slots), 0, size * sizeof(Slot));
    }
    ~Limit() { free(slots); }

    // The key's slot, or none.
    Slot *find(uint64_t key) {
        uint64_t word = key + 2;
        for (uint64_t i = key & mask, tried = 0; tried <= mask; i = (i + 1) & mask, tried++) {
            uint64_t found = slots[i].key.load();
            if (found == word) return &slots[i];
            if (found == EMPTY) return nullptr;
        }
        return nullptr;
    }
    // The key's slot, claimed where it had none; none where other keys have all slots.
    Slot *claim(uint64_t key) {
        uint64_t word = key + 2;
        for (uint64_t i = key & mask, tried = 0; tried <= mask; i = (i + 1) & mask, tried++) {
            uint64_t found = slots[i].key.load();
            if (found == word) return &slots[i];
            if (found == EMPTY && slots[i].key.compare_exchange_strong(found, word)) return &slots[i];
            if (found == word) return &slots[i];
        }
        return nullptr;
    }
    // 0 where the key is absent; a number n is kept as 4 n + 4, and answered as n + 1. At home it has no branch between a hit and a
    // miss: the least of the two is 0 just where one of them is, and a compiler makes no branch of that.
    uint64_t get(uint64_t key) {
        uint64_t word = key + 2;
        Slot &home = slots[key & mask];
        uint64_t found = home.key.load(), number = home.number.load();
        if (__builtin_expect(std::min(found, found ^ word) != 0, 0)) {
            Slot *slot = find(key);
            return (slot ? slot->number.load() : ABSENT) >> 2;
        }
        return (number & -uint64_t(found == word)) >> 2;
    }
    uint64_t exchange(Slot *slot, uint64_t wanted) {
        uint64_t before = slot->number.load();
        while (!slot->number.compare_exchange_strong(before, wanted)) {}
        return before;
    }
    bool put(uint64_t key, uint64_t number) {
        Slot *slot = claim(key);
        if (!slot) return false;
        exchange(slot, 4 * number + 4);
        return true;
    }
    uint64_t remove(uint64_t key) {
        Slot *slot = find(key);
        return slot ? exchange(slot, ABSENT) : ABSENT;
    }
};

int main(int argc, char **argv) { return load::run<Limit>("limit", argc, argv, 131072, load::Removed::keeps_its_slot); }
