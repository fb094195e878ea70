// How an item is made, in one block with its key and value, and freed with the list behind it.
#include "item.hpp"

#include <algorithm>
#include <new>

namespace cache {

std::unique_ptr<item> item::make(std::string_view key, std::string_view value,
                                 milliseconds expires, milliseconds now) noexcept
{
    void *block = ::operator new(sizeof(item) + key.size() + value.size(), std::nothrow);
    return std::unique_ptr<item>(block ? new (block) item(key, value, expires, now) : nullptr);
}

item::item(std::string_view key, std::string_view value, milliseconds expires,
           milliseconds now) noexcept
    : expires_(expires), used_(std::uint32_t(now)), key_size_(std::uint32_t(key.size())),
      value_size_(std::uint32_t(value.size()))
{
    char *to = reinterpret_cast<char *>(this + 1);
    std::copy(value.begin(), value.end(), std::copy(key.begin(), key.end(), to));
}

// One after the other: a long list of owners would take a long stack.
item::~item()
{
    while (next_)
        next_ = std::move(next_->next_);
}

void item::operator delete(void *block) noexcept { ::operator delete(block); }

} // namespace cache
