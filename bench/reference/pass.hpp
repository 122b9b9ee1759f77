// SPDX-License-Identifier: MIT
// A pass: what one thread uses to work on an index, and the segments into which it stores.
#pragma once

#include "table.hpp"

#include <cstdint>
#include <optional>
#include <vector>

namespace reference {

enum class SegmentState : std::uint8_t { Empty, InUse, Evicted };

// What a pass keeps of each of its segments.
struct Segment {
    SegmentState state = SegmentState::Empty;
    std::uint32_t used = 0;
    std::uint32_t deadline = 0;
};

class Pass {
public:
    Pass(const Shape& shape, std::uint32_t number)
        : rows_(shape.rows), first_(number * shape.segments_each), segments_(shape.segments_each) {}

    // The pass's own segment of this number, or null.
    Segment* segment(std::uint32_t number) {
        return number - first_ < segments_.size() ? &segments_[number - first_] : nullptr;
    }

    std::optional<std::uint32_t> current() const { return current_; }
    void set_current(std::optional<std::uint32_t> segment) { current_ = segment; }

    // The segment after the current one, in a ring.
    std::uint32_t next_segment() const {
        const std::uint32_t last = first_ + static_cast<std::uint32_t>(segments_.size()) - 1;
        return current_ && *current_ < last ? *current_ + 1 : first_;
    }

    // The row into which the next write stores.
    std::optional<RowPlace> next_row() {
        if (!current_ || segment(*current_)->used == rows_) {
            return std::nullopt;
        }
        return RowPlace{*current_, segment(*current_)->used};
    }

    void use_row() { ++segment(*current_)->used; }

private:
    std::uint32_t rows_;
    std::uint32_t first_;
    std::vector<Segment> segments_;
    std::optional<std::uint32_t> current_;
};

}  // namespace reference
