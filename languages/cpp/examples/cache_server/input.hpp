// Bytes that came from a client and aren't answered yet.
#pragma once

#include <algorithm>
#include <cstddef>
#include <memory>
#include <string_view>

namespace cache {

class input {
public:
    std::string_view bytes() const noexcept { return {block_.get() + begin_, end_ - begin_}; }

    // Where more bytes may be written: room() of them, and at least so many.
    char *make_room(std::size_t least)
    {
        if (room() < least) {
            const std::string_view old = bytes();
            const std::size_t size = std::max(old.size() + least, 2 * old.size());
            if (size > size_) {
                std::unique_ptr<char[]> block(new char[size]);
                std::copy(old.begin(), old.end(), block.get());
                block_ = std::move(block);
                size_ = size;
            } else {
                std::copy(old.begin(), old.end(), block_.get());
            }
            end_ = old.size();
            begin_ = 0;
        }
        return block_.get() + end_;
    }
    std::size_t room() const noexcept { return size_ - end_; }
    void came(std::size_t size) noexcept { end_ += size; }

    // The first bytes are answered. Memory for many is given back when all are.
    void take(std::size_t size) noexcept
    {
        begin_ += size;
        if (begin_ < end_)
            return;
        begin_ = end_ = 0;
        if (size_ > most_kept) {
            block_.reset();
            size_ = 0;
        }
    }

private:
    static constexpr std::size_t most_kept = 256 << 10;

    std::unique_ptr<char[]> block_;
    std::size_t size_ = 0, begin_ = 0, end_ = 0;
};

} // namespace cache
