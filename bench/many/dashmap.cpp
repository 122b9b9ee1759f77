// SPDX-License-Identifier: MIT
// Many keys in DashMap, a map in Rust.

#include "../peers/dashmap.hpp"
#include "peer.hpp"

int main(int count, char** words) { return bench::measure_many<bench::ManyOf<bench::DashMap>>(count, words); }
