/*
 * samvolip.hpp - a concurrent map of whole numbers for C++17: the map of samvolip_map.h.
 *
 *     samvolip::map map;
 *     // any thread calls it:
 *     map.add(7, 1).value();
 *     if (std::optional<std::uint64_t> value = map.get(7).value()) ...
 *     for (auto [key, value] : map) ...
 *
 *
 * Rules
 *
 * Threads. Any thread may call a map, any number of them at a time. A map is moved, assigned to or
 * destroyed while no thread calls it and no walk of it goes on. Threads that have called it may end
 * before that or after. With a map that was moved from nothing is done but to assign or destroy it.
 *
 * Keys go up to SAMVOLIP_KEY_MAX, which is 2^64 - 3, and values up to SAMVOLIP_VALUE_MAX, which is
 * 2^60 - 1. Any type of integers does for both: a negative one is refused.
 *
 * Refusals. A call answers a result: what it has to answer, or why it was refused. A refused call
 * changes nothing. Any call may be refused with fault::nested, by a signal handler in the middle of
 * another one; what else is beside each. No call throws, but value() of a result does: a
 * samvolip::refused, if the call was refused. So do the constructors and a loop over a map. Where
 * exceptions are off, these write why and abort.
 *
 * samvolip_map.h tells the rest: what calls cost, how a map grows and shrinks, what threads, signal
 * handlers and forks have to mind. samvolip_seats.hpp is the map that is underneath.
 */
#ifndef SAMVOLIP_HPP
#define SAMVOLIP_HPP

#include "samvolip_map.h"

#include <cstddef>
#include <cstdint>
#include <cstdio>
#include <cstdlib>
#include <iterator>
#include <memory>
#include <new>
#include <optional>
#include <stdexcept>
#include <string>
#include <type_traits>
#include <utility>
#include <vector>

namespace samvolip {

/* ---- results ------------------------------------------------------------------------------- */

/* Why a call was refused: the codes of samvolip_map.h and of samvolip.h. */
enum class fault : int {
    none = 0,
    out_of_memory = SAMVOLIP_E_OUT_OF_MEMORY,
    key_range = SAMVOLIP_E_KEY_RANGE,     /* a key past SAMVOLIP_KEY_MAX, or a negative one */
    value_range = SAMVOLIP_E_VALUE_RANGE, /* the same of a value and SAMVOLIP_VALUE_MAX */
    sum_range = SAMVOLIP_E_SUM_RANGE,     /* the sum of an add is past it */
    nested = SAMVOLIP_E_NESTED,
    options = SAMVOLIP_E_OPTIONS, /* an option out of its range */
    version = SAMVOLIP_E_VERSION, /* the library doesn't take the program's headers */

    /* of seats alone */
    tables = SAMVOLIP_E_TABLES,
    exponents = SAMVOLIP_E_EXPONENTS,
    falling = SAMVOLIP_E_FALLING,
    slots = SAMVOLIP_E_SLOTS,
    seats = SAMVOLIP_E_SEATS,
    stripes = SAMVOLIP_E_STRIPES,
    reprobes = SAMVOLIP_E_REPROBES,
    chunk = SAMVOLIP_E_CHUNK,
    full = SAMVOLIP_E_FULL,
    no_seat = SAMVOLIP_E_NO_SEAT,
    not_all_seats = SAMVOLIP_E_NOT_ALL_SEATS,
    lost = SAMVOLIP_E_LOST
};

/* Why a call was refused, also for people. */
class refusal {
public:
    constexpr refusal(fault why = fault::none) noexcept : why_(why) {}
    constexpr refusal(fault why, const char *text) noexcept : why_(why), text_(text) {}
    constexpr fault why() const noexcept { return why_; }
    const char *message() const noexcept
    {
        switch (why_) {
        case fault::key_range: return "a key is from 0 to 2^64 - 3";
        case fault::value_range: return "a value is from 0 to 2^60 - 1";
        default: return text_ ? text_ : samvolip_map_strerror(static_cast<int>(why_));
        }
    }

private:
    fault why_;
    const char *text_ = nullptr; /* which option is wrong, and its range */
};

/* What value() throws. */
class refused : public std::runtime_error {
public:
    explicit refused(refusal why)
        : std::runtime_error(std::string("samvolip: ") + why.message()), why_(why)
    {
    }
    const refusal &error() const noexcept { return why_; }

private:
    refusal why_;
};

namespace inside {

/* Whether what an object gives ends with it. */
template <class T> inline constexpr bool is_pin = false;

} // namespace inside

/* What a call answers, or why it was refused: much as std::expected, but no condition. */
template <class T> class [[nodiscard]] result {
public:
    result(T answer) : answer_(std::move(answer)) {}
    result(refusal why) noexcept : why_(why) {}

    /* Whether the call was made. */
    bool has_value() const noexcept { return answer_.has_value(); }
    /* In a condition, has_value() asks whether the call was made, value() what it answers. */
    explicit operator bool() const = delete;

    /* Why it was refused: fault::none if it wasn't. */
    const refusal &error() const noexcept { return why_; }

    /* The answer of a call that was made. */
    T &operator*() & noexcept { return *answer_; }
    const T &operator*() const & noexcept { return *answer_; }
    T operator*() && { return *std::move(answer_); }
    T *operator->() & noexcept { return &*answer_; }
    const T *operator->() const & noexcept { return &*answer_; }
    template <class Given = T, std::enable_if_t<!inside::is_pin<Given>, int> = 0>
    T *operator->() && noexcept
    {
        return &*answer_;
    }
    template <class Given = T, std::enable_if_t<inside::is_pin<Given>, int> = 0>
    T *operator->() && = delete; /* what a pin gives is gone with it: it needs a name */

    /* The answer. A refusal is thrown. */
    T &value() & { return expect(), *answer_; }
    const T &value() const & { return expect(), *answer_; }
    T value() && { return expect(), *std::move(answer_); }

    /* The answer, or this if the call was refused. */
    T value_or(T other) const & { return answer_.value_or(std::move(other)); }
    T value_or(T other) && { return std::move(answer_).value_or(std::move(other)); }

private:
    void expect() const
    {
        if (has_value())
            return;
#ifdef __cpp_exceptions
        throw refused(why_);
#else
        std::fprintf(stderr, "samvolip: %s\n", why_.message());
        std::abort();
#endif
    }

    std::optional<T> answer_;
    refusal why_;
};

/* That a call was made which has nothing to answer. */
struct done {};

/* A value, or none. */
using found = std::optional<std::uint64_t>;

/* A key and its value. */
struct entry {
    std::uint64_t key;
    std::uint64_t value;
};

/* The value that is at a key now, and whether it was put there by this call. */
struct emplaced {
    std::uint64_t value;
    bool inserted;
};

namespace inside {

/* A key as it is given. A negative one is none, whatever else its bits might be. */
class key {
public:
    constexpr key(std::uint64_t given) noexcept : bits_(given) {}
    template <class Number,
              std::enable_if_t<std::is_integral_v<Number> && std::is_signed_v<Number>, int> = 0>
    constexpr key(Number given) noexcept
        : bits_(given < 0 ? UINT64_MAX : static_cast<std::uint64_t>(given))
    {
    }
    constexpr operator std::uint64_t() const noexcept { return bits_; }

private:
    std::uint64_t bits_;
};

/* A refusal, if the code is one; else the answer. */
template <class T> result<T> answer(int code, T made)
{
    if (code < 0)
        return refusal(static_cast<fault>(code));
    return made;
}

/* What a compare-and-exchange answers. */
inline result<bool> exchanged(int code, const samvolip_reply &reply, found &expected)
{
    if (code >= 0 && !reply.matched)
        expected = reply.had ? found(reply.before) : found();
    return answer(code, reply.matched == 1);
}

/* Exchanges what is at a key of a map or of a seat for what a function makes of it. */
template <class Caller, class Function>
result<found> update(Caller &caller, std::uint64_t key, Function &function)
{
    result<found> before = caller.get(key);
    while (before.has_value()) {
        const found expected = *before;
        const result<bool> made = caller.compare_exchange(key, *before, function(expected));
        if (!made.has_value())
            return made.error();
        if (*made)
            break;
    }
    return before;
}

/* Whether there was memory for what takes some. */
template <class Work> bool has_memory(Work &&work)
{
#ifdef __cpp_exceptions
    try {
        work();
    } catch (const std::bad_alloc &) {
        return false;
    }
#else
    work();
#endif
    return true;
}

/* Whether there is memory for so many entries. */
inline bool has_room(std::vector<entry> &all, std::size_t count)
{
    return has_memory([&] { all.resize(count); });
}

/* The entries as C has them. */
inline samvolip_entry *of_c(std::vector<entry> &all) noexcept
{
    static_assert(sizeof(entry) == sizeof(samvolip_entry)
                      && offsetof(entry, key) == offsetof(samvolip_entry, key)
                      && offsetof(entry, value) == offsetof(samvolip_entry, number),
                  "an entry of C");
    return reinterpret_cast<samvolip_entry *>(all.data());
}

/* Where a loop over a map or a seat is: an input iterator. Copies of it go by one walk, so that once
   one of them has gone on the others stay behind. The end has no walk. */
template <class Walk> class iterator {
public:
    using iterator_category = std::input_iterator_tag;
    using value_type = entry;
    using difference_type = std::ptrdiff_t;
    using pointer = const entry *;
    using reference = const entry &;

    iterator() noexcept = default;
    explicit iterator(Walk of) : of_(std::move(of)) { ++*this; }
    reference operator*() const noexcept { return *shown_; }
    pointer operator->() const noexcept { return &*shown_; }
    iterator &operator++()
    {
        shown_ = of_->next().value();
        return *this;
    }
    iterator operator++(int)
    {
        iterator before(*this);
        ++*this;
        return before;
    }
    friend bool operator==(const iterator &at, const iterator &other) noexcept
    {
        return at.shown_.has_value() == other.shown_.has_value();
    }
    friend bool operator!=(const iterator &at, const iterator &other) noexcept
    {
        return !(at == other);
    }

private:
    std::optional<Walk> of_;
    std::optional<entry> shown_;
};

} // namespace inside

/* ---- the map ------------------------------------------------------------------------------- */

/* What becomes of a key before it is looked for: an enum samvolip_keys. */
enum class keys : std::uint32_t {
    secret = SAMVOLIP_KEYS_SECRET,
    mixed = SAMVOLIP_KEYS_MIXED,
    as_they_are = SAMVOLIP_KEYS_AS_THEY_ARE
};

/* How a map is opened: a samvolip_map_options, which has the defaults that 0 stands for. */
struct options {
    std::uint64_t room = 0;    /* for how many keys there is room at first, and at least */
    std::uint64_t memory = 0;  /* how many bytes its tables take at most; two first tables, or more */
    std::uint32_t growth = 0;  /* for how many times its keys there is room after a renewal */
    std::uint32_t threads = 0; /* how many threads have a seat of their own; others share */
    samvolip::keys keys = samvolip::keys::secret;
};

/* A walk over a map, by one thread at a time, while others write. What it shows samvolip_map.h
   says. */
class walk {
public:
    /* The next key and its value, or nothing at the end. */
    result<std::optional<entry>> next()
    {
        entry shown{0, 0};
        const int code = samvolip_map_walk_next(walk_.get(), &shown.key, &shown.value);
        return inside::answer(code, code > 0 ? std::optional<entry>(shown) : std::nullopt);
    }

private:
    friend class map;

    struct ends {
        void operator()(samvolip_map_walk *walk) const noexcept { samvolip_map_walk_end(walk); }
    };
    explicit walk(samvolip_map_walk *begun) noexcept : walk_(begun) {}

    std::unique_ptr<samvolip_map_walk, ends> walk_;
};

namespace inside {

/* A walk by which several iterators go. */
class shared_walk {
public:
    static result<shared_walk> of(result<walk> begun)
    {
        if (!begun.has_value())
            return begun.error();
        shared_walk made;
        if (!has_memory([&] { made.walk_ = std::make_shared<walk>(*std::move(begun)); }))
            return refusal(fault::out_of_memory);
        return made;
    }
    result<std::optional<entry>> next() { return walk_->next(); }

private:
    std::shared_ptr<walk> walk_;
};

} // namespace inside

/* A map that any thread may call. */
class map {
public:
    /* An empty map. A refusal of open is thrown. */
    map() : map(options()) {}
    explicit map(const options &how) : map(open(how).value()) {}

    /* The same. Refused: out_of_memory, options, version. */
    static result<map> open(const options &how = options())
    {
        const samvolip_map_options given = {how.room, how.memory, how.growth, how.threads,
                                            static_cast<std::uint32_t>(how.keys)};
        samvolip_map *made = nullptr;
        const int code = samvolip_map_open(&given, &made);
        if (code == SAMVOLIP_E_OPTIONS)
            return refusal(fault::options, samvolip_map_wrong_option(&given));
        return inside::answer(code, map(made));
    }

    /* ---- one key. Refused: key_range; with a value also value_range; and out_of_memory, where a key
       that is new needs room ---- */

    /* What is at a key. */
    result<found> get(inside::key key) const { return told<samvolip_map_get>(key); }

    /* Whether there is a value at it. */
    result<bool> contains(inside::key key) const { return is_so<samvolip_map_contains>(key); }

    /* Puts a value at a key, and answers whether there was none. */
    result<bool> insert_or_assign(inside::key key, std::uint64_t value)
    {
        const int code = samvolip_map_put(native_handle(), key, value, nullptr);
        return inside::answer(code, code == SAMVOLIP_ABSENT);
    }

    /* Puts a value at a key that has none, and answers what is there then. */
    result<emplaced> try_emplace(inside::key key, std::uint64_t value)
    {
        std::uint64_t there = 0;
        const int code = samvolip_map_get_or_insert(native_handle(), key, value, &there);
        return inside::answer(code, emplaced{there, code == SAMVOLIP_ABSENT});
    }

    /* These answer what was at the key before. The first puts a value there, the second puts it
       in place of another, the third adds it to what is there, or to 0, and is also refused for
       sum_range. */
    result<found> exchange(inside::key key, std::uint64_t value)
    {
        return told<samvolip_map_put>(key, value);
    }
    result<found> replace(inside::key key, std::uint64_t value)
    {
        return told<samvolip_map_replace>(key, value);
    }
    result<found> add(inside::key key, std::uint64_t value)
    {
        return told<samvolip_map_add>(key, value);
    }

    /* So do these: they put a value at a key that has a smaller one, or a greater one, or none. */
    result<found> fetch_max(inside::key key, std::uint64_t value)
    {
        return told<samvolip_map_fetch_max>(key, value);
    }
    result<found> fetch_min(inside::key key, std::uint64_t value)
    {
        return told<samvolip_map_fetch_min>(key, value);
    }

    /* Each removes a key: the first answers whether there was a value, the second which. */
    result<bool> erase(inside::key key) { return is_so<samvolip_map_remove>(key, nullptr); }
    result<found> extract(inside::key key) { return told<samvolip_map_remove>(key); }

    /* Each answers whether it did it: the first puts `value` in place of `old`, the second removes
       a key that has this value. */
    result<bool> replace_if(inside::key key, std::uint64_t old, std::uint64_t value)
    {
        return is_so<samvolip_map_replace_if>(key, old, value);
    }
    result<bool> erase_if(inside::key key, std::uint64_t value)
    {
        return is_so<samvolip_map_remove_if>(key, value);
    }

    /* Sets a key to `next` if it is at `expected`, and answers whether it did. If not, `expected`
       becomes what is there. */
    result<bool> compare_exchange(inside::key key, found &expected, found next)
    {
        samvolip_reply reply = {0, 0, 0};
        const int code = samvolip_map_compare_exchange(native_handle(), key,
                                                       expected ? &*expected : nullptr,
                                                       next ? &*next : nullptr, &reply);
        return inside::exchanged(code, reply, expected);
    }

    /* Exchanges what is at a key for what a function makes of it: a function from found to found.
       It is called again where others' writes of the key came first, and may call the map; what it
       throws goes through. Answers what was there before. */
    template <class Function> result<found> update(inside::key key, Function &&function)
    {
        return inside::update(*this, key, function);
    }

    /* ---- the whole map ---- */

    /* How many keys there are. Exact: writes wait for some microseconds. */
    result<std::uint64_t> size() const
    {
        std::uint64_t size = 0;
        const int code = samvolip_map_size(native_handle(), &size);
        return inside::answer(code, size);
    }

    /* Whether there is none: as size(). */
    result<bool> empty() const
    {
        const auto keys = size();
        return keys.has_value() ? result<bool>(*keys == 0) : result<bool>(keys.error());
    }

    /* About how many: a guess while others write. */
    result<std::uint64_t> size_estimate() const
    {
        std::uint64_t size = 0;
        const int code = samvolip_map_size_estimate(native_handle(), &size);
        return inside::answer(code, size);
    }

    /* Removes all keys in one step. Refused: out_of_memory, as the next three. */
    result<done> clear()
    {
        return inside::answer(samvolip_map_clear(native_handle(), nullptr, nullptr), done());
    }

    /* The same; then each of them is shown to a function of a key and a value, which may call the
       map. If it throws, the program ends. */
    template <class Function> result<done> clear(Function &&function)
    {
        auto *shown = std::addressof(function);
        samvolip_map_visit *visit = [](void *to, std::uint64_t key, std::uint64_t value) noexcept {
            (**static_cast<decltype(shown) *>(to))(key, value);
        };
        return inside::answer(samvolip_map_clear(native_handle(), visit, &shown), done());
    }

    /* All entries of one moment, in no order. */
    result<std::vector<entry>> snapshot() const
    {
        std::vector<entry> all;
        std::size_t count = size_estimate().value_or(0);
        int code;
        do {
            if (!inside::has_room(all, count + count / 8 + 8))
                return refusal(fault::out_of_memory);
            code = samvolip_map_snapshot(native_handle(), inside::of_c(all), all.size(), &count);
        } while (code == SAMVOLIP_E_ROOM);
        all.resize(code < 0 ? 0 : count);
        return inside::answer(code, std::move(all));
    }

    /* Makes the map anew, with room for so many keys, or as it would by itself. */
    result<done> renew(std::uint64_t room = 0)
    {
        return inside::answer(samvolip_map_renew(native_handle(), room), done());
    }

    /* What happened so far, and how large the map is. */
    result<samvolip_map_figures> figures() const
    {
        samvolip_map_figures figures{};
        const int code = samvolip_map_look(native_handle(), &figures);
        return inside::answer(code, figures);
    }

    /* ---- walks: loops over a map may lie in one another ---- */

    using iterator = inside::iterator<inside::shared_walk>;
    iterator begin() const { return iterator(inside::shared_walk::of(walk()).value()); }
    iterator end() const noexcept { return {}; }

    /* What such a loop goes by. Refused: out_of_memory. */
    result<samvolip::walk> walk() const
    {
        samvolip_map_walk *begun = nullptr;
        const int code = samvolip_map_walk_begin(native_handle(), &begun);
        return inside::answer(code, samvolip::walk(begun));
    }

    /* Such a loop shows each key and its value to a function, which may call the map, and answers
       how many it showed. Refused: out_of_memory. */
    template <class Function> result<std::uint64_t> for_each(Function &&function) const
    {
        auto way = walk();
        if (!way.has_value())
            return way.error();
        for (std::uint64_t shown = 0;; shown++) {
            const auto next = way->next();
            if (!next.has_value())
                return next.error();
            if (!*next)
                return shown;
            function((*next)->key, (*next)->value);
        }
    }

    /* Erases each key of which a predicate, a function of a key and its value, says so, in the
       course of for_each: just with the value of which it said so. It is asked again where others'
       writes of the key came first. Answers how many it erased. If it is refused, some may be. */
    template <class Predicate> result<std::uint64_t> erase_if(Predicate &&predicate)
    {
        std::uint64_t erased = 0;
        refusal why;
        const auto shown = for_each([&](std::uint64_t key, std::uint64_t value) {
            found there = value;
            bool is_done = why.why() != fault::none;
            while (!is_done && there && predicate(key, *there)) {
                const result<bool> made = compare_exchange(key, there, std::nullopt);
                why = made.error();
                erased += made.value_or(false);
                is_done = !made.has_value() || *made;
            }
        });
        if (!shown.has_value() || why.why() != fault::none)
            return shown.has_value() ? why : shown.error();
        return erased;
    }

    /* ---- */

    /* Gives back what this thread has of the map, as its end does. It may call again. */
    void leave() { samvolip_map_leave(native_handle()); }

    /* For the functions of samvolip_map.h. */
    samvolip_map *native_handle() const noexcept { return map_.get(); }

private:
    struct frees {
        void operator()(samvolip_map *map) const noexcept { samvolip_map_free(map); }
    };
    explicit map(samvolip_map *made) noexcept : map_(made) {}

    /* A call of C that tells what it found, and one that says whether something is so. */
    template <auto Call, class... Words> result<found> told(Words... words) const
    {
        std::uint64_t value = 0;
        const int code = Call(native_handle(), words..., &value);
        return inside::answer(code, code > 0 ? found(value) : found());
    }
    template <auto Call, class... Words> result<bool> is_so(Words... words) const
    {
        const int code = Call(native_handle(), words...);
        return inside::answer(code, code > 0);
    }

    std::unique_ptr<samvolip_map, frees> map_;
};

} // namespace samvolip

#endif
