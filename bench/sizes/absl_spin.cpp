// SPDX-License-Identifier: MIT
// Values of several sizes in 64 of Abseil's maps, each behind a lock that spins.

#include "maps.hpp"

int main(int count, char** words) { return bench::measure_sizes<bench::Maps<bench::SpinLock, 64>>(count, words); }
