// SPDX-License-Identifier: MIT
// Checks the reference: on one thread beside a plain map, and by threads that read only what was
// stored under their key. It is made so small that chains grow and segments are evicted all the time.

#include "../common/workload.hpp"
#include "ahead.hpp"
#include "eviction.hpp"

#include <cstdio>
#include <cstdlib>
#include <map>
#include <string>
#include <thread>
#include <vector>

namespace {

using bench::Answer;
using bench::Key;
using bench::Value;
using namespace reference;

constexpr std::uint32_t never = UINT32_MAX;
constexpr std::uint32_t keys = 40;

void expect(bool is_so, const char* what) {
    if (!is_so) {
        std::fprintf(stderr, "wrong: %s\n", what);
        std::exit(1);
    }
}

// A value that says which key it is of.
Value value_of(std::uint32_t key, std::uint32_t count) {
    return Value::of_text((std::to_string(key) + " " + std::to_string(count)).c_str());
}

struct Standing {
    Value value;
    std::uint32_t segment;
};

// Each answer of one thread is the map's.
void check_alone(std::uint32_t now, std::uint32_t deadline) {
    Table table({4, 8, 1, 4, 16});
    Pass pass(table.shape(), 0);
    Eviction eviction(table, pass);
    std::map<std::uint32_t, Standing> plain;
    std::map<std::uint32_t, std::uint32_t> versions;
    const bool is_expired = deadline <= now;
    bench::Generator generator(7);
    for (std::uint32_t count = 0; count < 200'000; ++count) {
        const std::uint32_t number = generator.next() % keys;
        const bench::Kind kind = kind_of(bench::Mix::Mixed, generator.next());
        const Key key = Key::of_number(number);
        const auto found = plain.find(number);
        const bool stands = found != plain.end();
        const bool is_present = stands && !is_expired;
        std::uint32_t& version = versions[table.bucket_of(hash_of(key))];
        Value value;
        if (kind == bench::Kind::Get || kind == bench::Kind::Gets) {
            std::uint32_t seen = version;
            Reader reader(table, key, now);
            const Read read = kind == bench::Kind::Get ? reader.get(count, value) : reader.gets(count, value, seen);
            expect(read == (is_present ? Read::Found : Read::Miss), "whether a get finds its key");
            expect(!is_present || (value.bytes == found->second.value.bytes && seen == version), "what a get reads");
        } else if (kind == bench::Kind::Delete) {
            const Answer answer = Writer(table, pass, key, now).remove();
            expect(answer == (is_present ? Answer::Hit : Answer::Miss), "whether a delete finds its key");
            version += is_present;
            if (is_present) {
                plain.erase(found);
            }
        } else {
            const auto write = static_cast<bench::Write>(static_cast<int>(kind) - static_cast<int>(bench::Kind::Set));
            const std::uint32_t expected = version - count % 2;
            const Answer answer = Writer(table, pass, key, now).write(write, value_of(number, count), expected);
            const bool may_store = write == bench::Write::Set || (write == bench::Write::Add) != is_present;
            const bool is_stored = may_store && (write != bench::Write::Cas || expected == version);
            if (answer == Answer::NoRoom) {
                const std::uint32_t next = pass.next_segment();
                expect(!pass.next_row() && eviction.evict(next) && eviction.refill(next, deadline), "a refill");
                std::erase_if(plain, [&](const auto& entry) { return entry.second.segment == next; });
            } else if (answer != Answer::Full) {
                expect(answer == (is_stored ? Answer::Hit : Answer::Miss), "the answer to a write");
                version += is_stored;
                if (is_stored) {
                    plain[number] = {value_of(number, count), *pass.current()};
                }
            } else {
                expect(is_stored && !stands, "a full bucket");
            }
        }
    }
}

// What a thread reads was stored under the key.
void check_crowd() {
    Table table({4, 8, 4, 4, 16});
    std::vector<std::thread> threads;
    for (std::uint32_t number = 0; number < 4; ++number) {
        threads.emplace_back([&table, number] {
            Pass pass(table.shape(), number);
            Eviction eviction(table, pass);
            bench::Generator generator(number);
            for (std::uint32_t count = 0; count < 200'000; ++count) {
                const std::uint32_t drawn = generator.next() % keys;
                const Key key = Key::of_number(drawn);
                Value value;
                Ahead(table).look(&key, 1);
                if (Reader(table, key, 0).get(count, value) == Read::Found) {
                    expect(static_cast<std::uint32_t>(std::atoi(value.bytes.data())) == drawn, "whose value was read");
                }
                const Value mine = value_of(drawn, count);
                if (Writer(table, pass, key, 0).write(bench::Write::Set, mine, 0) == Answer::NoRoom) {
                    const std::uint32_t next = pass.next_segment();
                    if (eviction.evict(next)) {
                        eviction.refill(next, never);
                    }
                }
            }
        });
    }
    for (std::thread& thread : threads) {
        thread.join();
    }
}

}  // namespace

int main() {
    check_alone(0, never);
    check_alone(9, 10);
    check_alone(9, 9);
    check_crowd();
    std::puts("the reference answers as it should");
}
