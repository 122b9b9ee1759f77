// SPDX-License-Identifier: MIT
// Measures the lock-free hash table of Userspace RCU (rculfhash). An entry is never changed where it
// stands: a write puts a new node in its place, and the old one is freed after all readers have left.

#define _LGPL_SOURCE
#include <urcu.h>
#include <urcu/rculfhash.h>

#include "../common/measure.hpp"

#include <bit>
#include <memory>

namespace {

using bench::Answer;
using bench::Entry;
using bench::Key;
using bench::Value;

struct Node {
    cds_lfht_node link{};
    rcu_head head{};
    Key key;
    Entry entry;

    static Node* of(cds_lfht_node* link) { return link == nullptr ? nullptr : caa_container_of(link, Node, link); }
};

int has_key(cds_lfht_node* link, const void* key) { return Node::of(link)->key == *static_cast<const Key*>(key); }

void free_later(Node* node) {
    call_rcu(&node->head, [](rcu_head* head) { delete caa_container_of(head, Node, head); });
}

// The calling thread may read, for the life of this value.
class Reading {
public:
    Reading() { rcu_read_lock(); }
    ~Reading() { rcu_read_unlock(); }
    Reading(const Reading&) = delete;
    Reading& operator=(const Reading&) = delete;
};

class Client {
public:
    explicit Client(cds_lfht* table) : table_(table) {}

    Answer get(const Key& key, std::uint32_t, Value& value) {
        std::uint32_t version;
        return gets(key, 0, value, version);
    }

    Answer gets(const Key& key, std::uint32_t, Value& value, std::uint32_t& version) {
        const Reading reading;
        const Node* node = find(key).second;
        if (node == nullptr) {
            return Answer::Miss;
        }
        value = node->entry.value;
        version = node->entry.version;
        return Answer::Hit;
    }

    Answer write(bench::Write write, const Key& key, const Value& value, std::uint32_t expected) {
        const Reading reading;
        std::unique_ptr<Node> made;
        while (true) {
            auto [place, present] = find(key);
            const Entry* entry = present == nullptr ? nullptr : &present->entry;
            if (!bench::is_allowed(write, entry, expected)) {
                return Answer::Miss;
            }
            if (!made) {
                made = std::make_unique<Node>();
                made->key = key;
            }
            made->entry = bench::entry_after(entry, value);
            cds_lfht_node_init(&made->link);
            if (put(place, present, *made)) {
                made.release();
                if (present != nullptr) {
                    free_later(present);
                }
                return Answer::Hit;
            }
        }
    }

    Answer remove(const Key& key) {
        const Reading reading;
        Node* node = find(key).second;
        if (node == nullptr || cds_lfht_del(table_, &node->link) != 0) {
            return Answer::Miss;
        }
        free_later(node);
        return Answer::Hit;
    }

private:
    std::pair<cds_lfht_iter, Node*> find(const Key& key) {
        cds_lfht_iter place;
        cds_lfht_lookup(table_, bench::hash_of(key), has_key, &key, &place);
        return {place, Node::of(cds_lfht_iter_get_node(&place))};
    }

    // False where another thread was earlier.
    bool put(cds_lfht_iter& place, const Node* present, Node& made) {
        const unsigned long hash = bench::hash_of(made.key);
        if (present == nullptr) {
            return cds_lfht_add_unique(table_, hash, has_key, &made.key, &made.link) == &made.link;
        }
        return cds_lfht_replace(table_, &place, hash, has_key, &made.key, &made.link) == 0;
    }

    cds_lfht* table_;
};

class Store {
public:
    // RCU has to know each thread that reads.
    struct Membership {
        Membership() { rcu_register_thread(); }
        ~Membership() { rcu_unregister_thread(); }
    };

    using Client = ::Client;

    explicit Store(const bench::Plan& plan) {
        const unsigned long buckets = std::bit_ceil(static_cast<unsigned long>(plan.keys));
        table_ = cds_lfht_new(buckets, buckets, 0, CDS_LFHT_AUTO_RESIZE, nullptr);
    }

    Client client(std::uint32_t) { return Client(table_); }

private:
    cds_lfht* table_;
};

}  // namespace

int main(int count, char** words) { return bench::measure<Store>(count, words); }
