// SPDX-License-Identifier: MIT
// A lock that spins.
#pragma once

#include <atomic>
#include <thread>

namespace bench {

// A lock that spins, and gives up the processor after a while.
class SpinLock {
public:
    void lock() {
        for (unsigned tries = 0; is_taken_.exchange(true, std::memory_order_acquire); ++tries) {
            while (is_taken_.load(std::memory_order_relaxed)) {
                if (++tries % 256 == 0) {
                    std::this_thread::yield();
                }
            }
        }
    }

    void unlock() { is_taken_.store(false, std::memory_order_release); }

private:
    std::atomic<bool> is_taken_ = false;
};

}  // namespace bench
