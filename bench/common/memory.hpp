// SPDX-License-Identifier: MIT
// What the process takes.
#pragma once

#include <cstddef>
#include <fstream>
#include <malloc.h>
#include <string>

namespace bench {

// The bytes that the program has from malloc, with what malloc needs beside each piece.
inline std::size_t bytes_in_use() {
    const struct mallinfo2 now = mallinfo2();
    return now.uordblks + now.hblkhd;
}

// A line of the process's status, in bytes: VmRSS or VmHWM.
inline double status_bytes(const std::string& name) {
    std::ifstream file("/proc/self/status");
    for (std::string word; file >> word;) {
        if (word == name + ":") {
            double kilobytes = 0;
            file >> kilobytes;
            return kilobytes * 1024;
        }
    }
    return 0;
}

}  // namespace bench
