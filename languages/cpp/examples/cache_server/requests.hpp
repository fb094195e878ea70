// Requests, as they come in parts: RESP2's arrays of texts, and plain lines of words.
#pragma once

#include <cstddef>
#include <string_view>
#include <vector>

namespace cache {

class request_parser {
public:
    enum class state {
        partial, // more bytes have to come
        whole,   // words() has the request, which may be empty
        broken   // fault() says why; nothing that comes after it can be understood
    };

    // How many bytes a request may have.
    explicit request_parser(std::size_t most) noexcept : most_(most) {}

    // Looks at what has come of a request, from its first byte on. What was looked at before isn't
    // looked at again, so its bytes have to be the same.
    state parse(std::string_view come);

    // The words of a whole request, in what was given to parse, and how many bytes it has.
    const std::vector<std::string_view> &words() const noexcept { return words_; }
    std::size_t size() const noexcept { return at_; }
    const char *fault() const noexcept { return fault_; }

    // The next request.
    void begin() noexcept;

private:
    struct slice {
        std::size_t begin, size;
    };

    state parse_line(std::string_view come);
    state parse_count(std::string_view come);
    state parse_word(std::string_view come);
    state number_line(std::string_view come, char mark, std::size_t most, const char *fault,
                      std::size_t &number);
    state broken(const char *fault) noexcept;
    state whole(std::string_view come);

    const std::size_t most_;
    std::size_t at_ = 0;      // up to here it was looked at
    std::size_t left_ = 0;    // words that have to come
    bool is_counted_ = false; // whether left_ is known
    bool is_in_word_ = false; // whether the size of the next word is known
    std::vector<slice> slices_;
    std::vector<std::string_view> words_;
    const char *fault_ = nullptr;
};

} // namespace cache
