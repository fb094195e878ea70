/*
 * samvolip_seats.hpp - the proved map of samvolip.h for C++17: seats of it, and its end.
 *
 * samvolip::map is for any thread, grows and shrinks. This is what is underneath, for who wants the
 * last nanoseconds of a call, or nothing above what is proved: a map of a fixed shape, for threads
 * with a seat, which can be full.
 *
 *     samvolip::seat mine = samvolip::seat::open(samvolip_shape_for_keys(10000, 2)).value();
 *     samvolip::seat yours = mine.split().value();
 *     // yours goes to another thread; both call:
 *     mine.add(7, 1).value();
 *     // the other thread is joined; then the seats come together again:
 *     mine.join(std::move(yours)).value();
 *     samvolip::ended ended = mine.close().value();
 *     std::uint64_t size = ended.size();
 *
 * The rules are those of samvolip.h, and so are the costs, the refusals and the checks of
 * SAMVOLIP_CHECKED; results are those of samvolip.hpp. A seat is in one call at a time. Keys aren't
 * mixed: samvolip_mix does that. An object that was moved from, closed or joined is empty. With an
 * empty one nothing is done but to ask whether it is, to assign or to destroy it.
 */
#ifndef SAMVOLIP_SEATS_HPP
#define SAMVOLIP_SEATS_HPP

#include "samvolip.hpp"

namespace samvolip {

using shape = samvolip_shape;

namespace inside {

inline void free(samvolip_seat &seat) { samvolip_free(&seat); }
inline void free(samvolip_ended &ended) { samvolip_ended_free(&ended); }

/* A handle of samvolip.h, which is freed in the end. */
template <class Handle> class owned {
public:
    owned() noexcept = default;
    owned(owned &&other) noexcept : handle_(std::exchange(other.handle_, Handle{})) {}
    owned &operator=(owned &&other) noexcept
    {
        owned kept(std::move(other));
        std::swap(handle_, kept.handle_);
        return *this;
    }
    ~owned() { free(handle_); }

    /* Whether it isn't empty. */
    explicit operator bool() const noexcept { return handle_.handle != nullptr; }

    /* For the functions of samvolip.h. */
    Handle *native_handle() noexcept { return &handle_; }

protected:
    Handle handle_{};
};

} // namespace inside

/* What is left of a map that was closed. It stays on the thread that closed the map. */
class ended : public inside::owned<samvolip_ended> {
public:
    /* How many keys the map has. */
    std::uint64_t size() const { return samvolip_ended_size(&handle_); }

    /* What is at a key. */
    result<found> get(inside::key key) const
    {
        std::uint64_t value = 0;
        const int code = samvolip_ended_get(&handle_, key, &value);
        return inside::answer(code, code > 0 ? found(value) : found());
    }

    /* All keys in ascending order, with their values. */
    result<std::vector<entry>> entries() const
    {
        std::vector<entry> all;
        if (!inside::has_room(all, size()))
            return refusal(fault::out_of_memory);
        const int code = samvolip_ended_entries(&handle_, inside::of_c(all), all.size());
        return inside::answer(code, std::move(all));
    }
};

/* A walk of a seat. It ends before the seat is moved, joined, renewed, closed or destroyed. */
class seat_walk {
public:
    explicit seat_walk(samvolip_seat *seat) : seat_(seat) { samvolip_walk(seat, &cursor_); }

    /* The next key and its value, or nothing at the end. It is never refused. */
    result<std::optional<entry>> next()
    {
        entry shown{0, 0};
        const int code = samvolip_next(seat_, &cursor_, &shown.key, &shown.value);
        return inside::answer(code, code > 0 ? std::optional<entry>(shown) : std::nullopt);
    }

private:
    samvolip_seat *seat_;
    samvolip_cursor cursor_{};
};

/* A seat of a map, maybe with others in reserve. */
class seat : public inside::owned<samvolip_seat> {
public:
    /* All seats of a new map. */
    static result<seat> open(const shape &of)
    {
        seat all;
        const int code = samvolip_open(&of, all.native_handle());
        return inside::answer(code, std::move(all));
    }

    /* Gives away a seat that it has in reserve. */
    result<seat> split()
    {
        seat other;
        const int code = samvolip_split(&handle_, other.native_handle());
        return inside::answer(code, std::move(other));
    }

    /* Takes the seats of another one of the same map. */
    result<done> join(seat &&other)
    {
        return inside::answer(samvolip_join(&handle_, other.native_handle()), done());
    }

    /* ---- the calls of samvolip::map, which answer the same. One for which there is no slot is
       refused as full ---- */

    result<found> get(inside::key key) { return told<samvolip_get>(key); }
    result<bool> contains(inside::key key) { return is_so<samvolip_contains>(key); }
    result<bool> insert_or_assign(inside::key key, std::uint64_t value)
    {
        const int code = samvolip_put(&handle_, key, value, nullptr);
        return inside::answer(code, code == SAMVOLIP_ABSENT);
    }
    result<emplaced> try_emplace(inside::key key, std::uint64_t value)
    {
        std::uint64_t there = 0;
        const int code = samvolip_get_or_insert(&handle_, key, value, &there);
        return inside::answer(code, emplaced{there, code == SAMVOLIP_ABSENT});
    }
    result<found> exchange(inside::key key, std::uint64_t value)
    {
        return told<samvolip_put>(key, value);
    }
    result<found> replace(inside::key key, std::uint64_t value)
    {
        return told<samvolip_replace>(key, value);
    }
    result<found> add(inside::key key, std::uint64_t value)
    {
        return told<samvolip_add>(key, value);
    }
    result<found> fetch_max(inside::key key, std::uint64_t value)
    {
        return told<samvolip_fetch_max>(key, value);
    }
    result<found> fetch_min(inside::key key, std::uint64_t value)
    {
        return told<samvolip_fetch_min>(key, value);
    }
    result<bool> erase(inside::key key) { return is_so<samvolip_remove>(key, nullptr); }
    result<found> extract(inside::key key) { return told<samvolip_remove>(key); }
    result<bool> replace_if(inside::key key, std::uint64_t old, std::uint64_t value)
    {
        return is_so<samvolip_replace_if>(key, old, value);
    }
    result<bool> erase_if(inside::key key, std::uint64_t value)
    {
        return is_so<samvolip_remove_if>(key, value);
    }
    result<bool> compare_exchange(inside::key key, found &expected, found next)
    {
        samvolip_reply reply = {0, 0, 0};
        int code;
        do
            code = samvolip_compare_exchange(&handle_, key, expected ? &*expected : nullptr,
                                             next ? &*next : nullptr, 1, &reply);
        while (code == SAMVOLIP_E_CONTENDED && samvolip_rest());
        return inside::exchanged(code, reply, expected);
    }
    template <class Function> result<found> update(inside::key key, Function &&function)
    {
        return inside::update(*this, key, function);
    }

    using iterator = inside::iterator<seat_walk>;
    iterator begin() { return iterator(walk()); }
    iterator end() const noexcept { return {}; }
    seat_walk walk() { return seat_walk(&handle_); }

    /* ---- how the map is. These are never refused ---- */

    std::uint64_t size_estimate() { return samvolip_size_estimate(&handle_); }
    std::uint32_t generation() { return samvolip_generation(&handle_); }
    bool should_renew() { return samvolip_should_renew(&handle_) != 0; }
    samvolip_slots occupancy()
    {
        samvolip_slots slots;
        samvolip_occupancy(&handle_, &slots);
        return slots;
    }

    /* ---- with all seats of the map; else refused as not_all_seats ---- */

    /* How many keys there are, exactly. */
    result<std::uint64_t> settle()
    {
        std::uint64_t size = 0;
        const int code = samvolip_settle(&handle_, &size);
        return inside::answer(code, size);
    }

    /* All entries, in no order. */
    result<std::vector<entry>> entries()
    {
        std::vector<entry> all;
        std::uint64_t count = size_estimate();
        int code;
        do {
            if (!inside::has_room(all, count))
                return refusal(fault::out_of_memory);
            code = samvolip_entries(&handle_, inside::of_c(all), all.size(), &count);
        } while (code == SAMVOLIP_E_ROOM);
        all.resize(code < 0 ? 0 : count);
        return inside::answer(code, std::move(all));
    }

    /* Goes on over a new map of this shape with the same entries. */
    result<done> renew(const shape &of)
    {
        return inside::answer(samvolip_renew(&handle_, &of), done());
    }

    /* Ends the map, and answers what is left of it. */
    result<ended> close()
    {
        ended left;
        const int code = samvolip_close(&handle_, left.native_handle());
        return inside::answer(code, std::move(left));
    }

private:
    template <auto Call, class... Words> result<found> told(Words... words)
    {
        std::uint64_t value = 0;
        const int code = Call(&handle_, words..., &value);
        return inside::answer(code, code > 0 ? found(value) : found());
    }
    template <auto Call, class... Words> result<bool> is_so(Words... words)
    {
        const int code = Call(&handle_, words...);
        return inside::answer(code, code > 0);
    }
};

} // namespace samvolip

#endif
