// SPDX-License-Identifier: MIT
// A store in another language, behind four calls of C.
#pragma once

#include "../common/store.hpp"

#include <cstdint>

namespace bench {

// `open` makes a store by a plan. `read` writes a key's entry to its last argument, and each says whether it was done.
template <auto open, auto read, auto store, auto erase>
class BehindC {
    using Handle = decltype(open(Plan{}));

public:
    using Membership = NoMembership;

    class Client {
    public:
        explicit Client(Handle handle) : handle_(handle) {}

        Answer get(const Key& key, std::uint32_t, Value& value) {
            std::uint32_t version;
            return gets(key, 0, value, version);
        }

        Answer gets(const Key& key, std::uint32_t, Value& value, std::uint32_t& version) {
            Entry found;
            if (!read(handle_, &key, &found)) {
                return Answer::Miss;
            }
            value = found.value;
            version = found.version;
            return Answer::Hit;
        }

        Answer write(Write write, const Key& key, const Value& value, std::uint32_t expected) {
            return answer_of(store(handle_, write, &key, &value, expected));
        }

        Answer remove(const Key& key) { return answer_of(erase(handle_, &key)); }

    private:
        static Answer answer_of(bool is_done) { return is_done ? Answer::Hit : Answer::Miss; }

        Handle handle_;
    };

    explicit BehindC(const Plan& plan) : handle_(open(plan)) {}

    Client client(std::uint32_t) { return Client(handle_); }

private:
    Handle handle_;
};

}  // namespace bench
