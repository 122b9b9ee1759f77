// SPDX-License-Identifier: MIT
// Measures DashMap.

#include "../common/measure.hpp"
#include "dashmap.hpp"

int main(int count, char** words) { return bench::measure<bench::DashMap>(count, words); }
