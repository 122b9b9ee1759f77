// SPDX-License-Identifier: MIT
// Values of several sizes in one of Abseil's maps behind one mutex.

#include "maps.hpp"

int main(int count, char** words) { return bench::measure_sizes<bench::Maps<std::mutex, 1>>(count, words); }
