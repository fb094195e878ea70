// liburcu's cds_lfht: one sorted list of all nodes, without locks, with buckets that point into it. A thread of its own makes more
// buckets where chains are long, and call_rcu frees removed nodes. It doesn't count its keys (CDS_LFHT_ACCOUNTING): a map that does
// asks for more buckets only at powers of two, and forgets that where it is making some just then, so that a fast fill was found to
// end with a handful of buckets. The flavor is memb. The key is its hash. The read lock is a call of the library: to inline it is for
// programs under the LGPL.
#define URCU_INLINE_SMALL_FUNCTIONS
#include <urcu/urcu-memb.h>
#include <urcu/rculfhash.h>
#include "workloads.h"

struct Lfht {
    struct Node {
        cds_lfht_node link;
        uint64_t key;
        std::atomic<uint64_t> number;
        rcu_head head;
    };
    cds_lfht *table;

    static Node *node_of(cds_lfht_node *link) { return caa_container_of(link, Node, link); }
    static int matches(cds_lfht_node *link, const void *key) { return node_of(link)->key == *static_cast<const uint64_t *>(key); }
    static void let_go(rcu_head *head) { delete caa_container_of(head, Node, head); }

    explicit Lfht(uint64_t size)
        : table(cds_lfht_new_flavor(size, size, 0, CDS_LFHT_AUTO_RESIZE, &urcu_memb_flavor, nullptr)) {
        if (!table) abort();
    }
    ~Lfht() {
        cds_lfht_iter at;
        urcu_memb_read_lock();
        for (cds_lfht_first(table, &at); cds_lfht_iter_get_node(&at); cds_lfht_next(table, &at))
            take_out(node_of(cds_lfht_iter_get_node(&at)));
        urcu_memb_read_unlock();
        urcu_memb_barrier();
        if (cds_lfht_destroy(table, nullptr)) abort();
    }

    // Takes a node out, if no other thread does; it is freed when no reader can have it any more.
    void take_out(Node *node) {
        if (!cds_lfht_del(table, &node->link)) urcu_memb_call_rcu(&node->head, let_go);
    }
    // The key's node, or none. It is there until the read lock is given back.
    Node *find(uint64_t key) {
        cds_lfht_iter at;
        cds_lfht_lookup(table, key, matches, &key, &at);
        cds_lfht_node *found = cds_lfht_iter_get_node(&at);
        return found ? node_of(found) : nullptr;
    }
    uint64_t get(uint64_t key) {
        urcu_memb_read_lock();
        Node *node = find(key);
        uint64_t found = node ? node->number.load() : 0;
        urcu_memb_read_unlock();
        return found;
    }
    // A put stores into the node that is there, and adds one only where there is none. That is cheaper than cds_lfht_add_replace,
    // which takes a node each time.
    void put(uint64_t key, uint64_t number) {
        urcu_memb_read_lock();
        if (Node *node = find(key)) node->number.store(number);
        else {
            Node *made = new Node{};
            made->key = key;
            made->number.store(number, std::memory_order_relaxed);
            cds_lfht_node *there = cds_lfht_add_unique(table, key, matches, &key, &made->link);
            if (there != &made->link) {
                node_of(there)->number.store(number);
                delete made;
            }
        }
        urcu_memb_read_unlock();
    }
    void remove(uint64_t key) {
        urcu_memb_read_lock();
        if (Node *node = find(key)) take_out(node);
        urcu_memb_read_unlock();
    }
};

template <> struct load::InThread<Lfht> {
    InThread() { urcu_memb_register_thread(); }
    ~InThread() { urcu_memb_unregister_thread(); }
};

int main(int argc, char **argv) { return load::run<Lfht>("lfht", argc, argv, 4); }
