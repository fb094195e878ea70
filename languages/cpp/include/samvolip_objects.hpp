/*
 * samvolip_objects.hpp - a concurrent map from whole numbers to objects for C++17, which frees what
 * is overwritten and erased.
 *
 *     samvolip::object_map<session> sessions;
 *     // any thread calls it:
 *     sessions.insert_or_assign(7, std::make_unique<session>("Ada")).value();
 *     {
 *         auto pin = sessions.pin();
 *         if (session *found = pin.get(7)) ...            as long as the pin lives
 *     }
 *     sessions.erase(7).value();
 *
 *
 * Rules
 *
 * Pins. What a thread gets by a pin isn't freed as long as the pin lives, whatever becomes of the
 * key. A pin without a name gives nothing. A pin lives and ends on the thread that made it, may be moved there, and lies within the life
 * of the map. Pins nest. A pin that stays stops nobody, but nothing is freed that was overwritten or
 * erased since: figures tell how much that is.
 *
 * Objects. The map owns what is put, and deletes it: an object that was overwritten or erased, when
 * all pins are gone that there were then; all others with the map. A destructor is called by any
 * thread that calls the map, between its calls, and may call the map; it doesn't throw. Many threads
 * have the same object at once: what they change of it they agree on themselves (atomics, a lock),
 * or they put a new one in its place (compute). A const map gives const objects.
 *
 * The value in the map underneath is the object's address, whole: an address of Linux on x86-64 is
 * less than 2^57, and a value goes up to 2^60 - 1. A pointer past that, with a tag in its high
 * bits, is refused as fault::value_range.
 *
 * Refusals. They are those of samvolip.hpp. A refused call changes nothing, and an object that it
 * was given is the caller's still. Where it needs memory to remember what it takes out, it takes
 * that first; so an erase, too, may be refused as out_of_memory.
 *
 * Threads, keys, renewals, signal handlers and forks are as samvolip.hpp and samvolip_map.h say.
 */
#ifndef SAMVOLIP_OBJECTS_HPP
#define SAMVOLIP_OBJECTS_HPP

#include "samvolip.hpp"
#include "samvolip_objects.h"

#include <type_traits>

namespace samvolip {

/* How much was retired, and waits for pins. */
using object_figures = samvolip_object_figures;

namespace inside {

/* The thread sanitizer doesn't look into the proved map: it is told that who gets an object from there
   sees all that was done to it before it was put. */
#if defined(__SANITIZE_THREAD__)
#define SAMVOLIP_TELLS_ORDER 1
#elif defined(__has_feature)
#if __has_feature(thread_sanitizer)
#define SAMVOLIP_TELLS_ORDER 1
#endif
#endif
#ifdef SAMVOLIP_TELLS_ORDER
extern "C" void __tsan_acquire(void *), __tsan_release(void *);
inline void tell_put(void *object) { __tsan_release(object); }
inline void tell_got(void *object) { __tsan_acquire(object); }
#else
inline void tell_put(void *) noexcept {}
inline void tell_got(void *) noexcept {}
#endif

/* The value that an object is in the map, nullptr being 0; and back. */
template <class T> std::uint64_t value_of(T *object)
{
    static_assert(sizeof object == sizeof(std::uint64_t), "an address is a number");
    const std::uint64_t value = reinterpret_cast<std::uint64_t>(object);
    if (value <= SAMVOLIP_VALUE_MAX)
        tell_put(const_cast<std::remove_const_t<T> *>(object));
    return value;
}
template <class T> T *object_of(std::uint64_t value)
{
    void *const object = reinterpret_cast<void *>(value);
    tell_got(object);
    return static_cast<T *>(object);
}

} // namespace inside

template <class T> class object_map;
template <class T> class pin;
template <class T> class pinned;

namespace inside {
template <class T> inline constexpr bool is_pin<pin<T>> = true;
template <class T> inline constexpr bool is_pin<pinned<T>> = true;
} // namespace inside

/* A pin on a map: object_map<T>::pin(). That of a const map is a pin<const T>. */
template <class T> class pin {
public:
    /* The object at a key, or nullptr: also if there can't be such a key. In a signal handler in the
       middle of a call it is refused, and that is thrown. A pin that ends with its expression, as
       that of map.pin().get(7) does, gives nothing: what it gave would be gone with it. */
    T *get(inside::key key) const && = delete;
    T *get(inside::key key) const &
    {
        std::uint64_t value = 0;
        int code = samvolip_map_get(map_.get(), key, &value);
        if (code == SAMVOLIP_E_KEY_RANGE)
            code = SAMVOLIP_ABSENT;
        return inside::answer(code, inside::object_of<T>(value)).value();
    }

private:
    template <class> friend class object_map;

    struct unpins {
        void operator()(samvolip_map *map) const noexcept { samvolip_map_unpin(map); }
    };
    explicit pin(samvolip_map *pinned) noexcept : map_(pinned) {}
    static result<pin> on(samvolip_map *map)
    {
        const int code = samvolip_map_pin(map);
        return inside::answer(code, pin(code < 0 ? nullptr : map));
    }

    std::unique_ptr<samvolip_map, unpins> map_;
};

/* What is at a key, or nullptr, with the pin that keeps it: what compute answers. */
template <class T> class pinned {
public:
    explicit operator bool() const noexcept { return object_ != nullptr; }
    T *operator->() const noexcept { return object_; }
    T &operator*() const & noexcept { return *object_; }
    T *get() const & noexcept { return object_; }

    /* As of a pin that ends with its expression. */
    T &operator*() const && = delete;
    T *get() const && = delete;

private:
    template <class> friend class object_map;

    pinned(samvolip::pin<T> by, T *object) noexcept : pin_(std::move(by)), object_(object) {}

    samvolip::pin<T> pin_;
    T *object_;
};

/* The answer of a function of compute that leaves its key as it is. */
struct unchanged_t {
    explicit unchanged_t() = default;
};
inline constexpr unchanged_t unchanged{};

/* What such a function answers: an object, to put it at the key; nullptr, to erase the key; or
   `unchanged`. */
template <class T> class computed {
public:
    template <class Made, std::enable_if_t<
                              std::is_convertible_v<std::unique_ptr<Made>, std::unique_ptr<T>>, int> = 0>
    computed(std::unique_ptr<Made> object) noexcept : object_(std::move(object))
    {
    }
    computed(std::nullptr_t) noexcept {}
    computed(unchanged_t) noexcept : changes_(false) {}

private:
    template <class> friend class object_map;

    std::unique_ptr<T> object_;
    bool changes_ = true;
};

/* A map from whole numbers to objects. */
template <class T> class object_map {
    static_assert(std::is_object_v<T> && !std::is_array_v<T>, "of one object at each key");

public:
    /* An empty map. A refusal of open is thrown. */
    object_map() : object_map(options()) {}
    explicit object_map(const options &how) : map_(how) {}

    /* The same. Refused: out_of_memory, options, version. */
    static result<object_map> open(const options &how = options())
    {
        result<samvolip::map> made = samvolip::map::open(how);
        if (!made.has_value())
            return made.error();
        return object_map(*std::move(made));
    }

    object_map(object_map &&) noexcept = default;
    object_map &operator=(object_map &&other) noexcept
    {
        object_map kept(std::move(other));
        std::swap(map_, kept.map_); /* what was here ends with this one */
        return *this;
    }

    /* After the last pin and the last call. Destructors of objects don't call the map then. */
    ~object_map()
    {
        if (native_handle())
            samvolip_map_each(native_handle(), [](void *, std::uint64_t, std::uint64_t value) {
                delete inside::object_of<T>(value);
            }, nullptr);
    }

    /* ---- pins ---- */

    /* A pin. What it is refused for is thrown: out_of_memory, of the first pin of a thread. */
    samvolip::pin<T> pin() { return try_pin().value(); }
    samvolip::pin<const T> pin() const { return try_pin().value(); }

    /* The same. */
    result<samvolip::pin<T>> try_pin() { return samvolip::pin<T>::on(native_handle()); }
    result<samvolip::pin<const T>> try_pin() const
    {
        return samvolip::pin<const T>::on(native_handle());
    }

    /* ---- one key. Refused: key_range, value_range, out_of_memory ---- */

    /* Whether there is an object at a key. */
    result<bool> contains(inside::key key) const { return map_.contains(key); }

    /* Puts an object at a key, and answers whether the key is new. nullptr erases the key, which then
       isn't. */
    result<bool> insert_or_assign(inside::key key, std::unique_ptr<T> &&object)
    {
        const bool erases = !object;
        const result<bool> had = erases ? erase(key) : exchange([&](std::uint64_t *before) {
            const std::uint64_t value = inside::value_of(object.get());
            const int code = samvolip_map_put(native_handle(), key, value, before);
            if (code >= 0)
                object.release();
            return code;
        });
        return had.has_value() ? result<bool>(!erases && !*had) : had;
    }

    /* Puts an object at a key that has none, and answers whether it did; if not, it is the caller's
       still. nullptr is no object. */
    result<bool> insert(inside::key key, std::unique_ptr<T> &&object)
    {
        T *none = nullptr;
        if (!object)
            return false;
        return compare_exchange(key, none, std::move(object));
    }

    /* Makes an object of these arguments and puts it at a key, if that has none, and answers whether
       it did. If there is one already, nothing is made. What the constructor throws goes through. */
    template <class... Arguments>
    result<bool> try_emplace(inside::key key, Arguments &&...arguments)
    {
        const result<bool> there = contains(key);
        if (!there.has_value())
            return there;
        if (*there)
            return false;
        return insert(key, std::make_unique<T>(std::forward<Arguments>(arguments)...));
    }

    /* Erases a key, and answers whether there was an object. */
    result<bool> erase(inside::key key)
    {
        return exchange([&](std::uint64_t *before) {
            return samvolip_map_remove(native_handle(), key, before);
        });
    }

    /* Erases a key if it has an object of which a predicate, a function of a const T &, says so; and
       answers whether it did. The very object is erased that was asked about: the predicate is asked
       again where another one took its place. What it throws goes through. */
    template <class Predicate> result<bool> erase_if(inside::key key, Predicate &&predicate)
    {
        bool erased = false;
        const auto left = compute(key, [&](const T *there) -> computed<T> {
            erased = there && predicate(*there);
            if (!erased)
                return unchanged;
            return nullptr;
        });
        return left.has_value() ? result<bool>(erased) : result<bool>(left.error());
    }

    /* Puts an object at a key that has the `expected` one, and answers whether it did. If not,
       `expected` becomes the object that is there, and the other one is the caller's still. nullptr
       stands for none: expected, for a key without an object; the object, to erase the key. A pin
       stands since the expected one was got, so that no other object has its address. */
    template <class As, std::enable_if_t<std::is_same_v<const As, const T>, int> = 0>
    result<bool> compare_exchange(inside::key key, As *&expected, std::unique_ptr<T> &&object)
    {
        samvolip_reply reply = {0, 0, 0};
        const result<bool> had = exchange([&](std::uint64_t *before) -> int {
            *before = reinterpret_cast<std::uint64_t>(expected);
            const std::uint64_t next = inside::value_of(object.get());
            const int code = samvolip_map_compare_exchange(native_handle(), key,
                                                           expected ? before : nullptr,
                                                           object ? &next : nullptr, &reply);
            if (code < 0 || !reply.matched)
                return code;
            object.release();
            return expected ? SAMVOLIP_PRESENT : SAMVOLIP_ABSENT;
        });
        if (had.has_value() && !reply.matched)
            expected = reply.had ? inside::object_of<As>(reply.before) : nullptr;
        return had.has_value() ? result<bool>(reply.matched == 1) : had;
    }

    /* Does with a key what a function of its object says: a function of a const T *, which is nullptr
       if there is none. It answers a std::unique_ptr<T> to put that there; nullptr, to erase the key;
       or `unchanged`, to leave it as it is; where it may answer several of these, it answers a
       computed<T>. It is called again where others' writes of the key came first, and may call the
       map; what it throws goes through. Answers what is there then. */
    template <class Function> result<pinned<T>> compute(inside::key key, Function &&function)
    {
        auto own = try_pin();
        if (!own.has_value())
            return own.error();
        for (T *there = own->get(key);;) {
            computed<T> next = function(static_cast<const T *>(there));
            if (!next.changes_ || (!there && !next.object_))
                return pinned<T>(*std::move(own), there);
            T *const object = next.object_.get();
            const result<bool> made = compare_exchange(key, there, std::move(next.object_));
            if (!made.has_value())
                return made.error();
            if (*made)
                return pinned<T>(*std::move(own), object);
        }
    }

    /* ---- the whole map ---- */

    /* Shows to a function of a key and an object all that the map has all the while, and maybe
       others; no key twice. The map is pinned meanwhile. Others may write, and so may the function;
       what it throws goes through. Answers how many were shown. Refused: out_of_memory. */
    template <class Function> result<std::uint64_t> for_each(Function &&function)
    {
        return show<T>(function);
    }
    template <class Function> result<std::uint64_t> for_each(Function &&function) const
    {
        return show<const T>(function);
    }

    /* Erases each key of which a predicate, a function of a key and a const T &, says so, as erase_if
       of a key does, in the course of for_each. Answers how many it erased. If it is refused, some
       may be erased. */
    template <class Predicate> result<std::uint64_t> erase_if(Predicate &&predicate)
    {
        std::uint64_t erased = 0;
        refusal why;
        const auto shown = show<const T>([&](std::uint64_t key, const T &) {
            if (why.why() != fault::none)
                return;
            const result<bool> made =
                erase_if(key, [&](const T &object) { return predicate(key, object); });
            why = made.error();
            erased += made.value_or(false);
        });
        if (!shown.has_value() || why.why() != fault::none)
            return shown.has_value() ? why : shown.error();
        return erased;
    }

    /* Erases all keys, one after another. */
    result<std::uint64_t> clear()
    {
        return erase_if([](std::uint64_t, const T &) { return true; });
    }

    /* How many keys there are: exact, and writes wait for some microseconds; and about how many. */
    result<std::uint64_t> size() const { return map_.size(); }
    result<std::uint64_t> size_estimate() const { return map_.size_estimate(); }

    /* Makes the map anew, with room for so many keys, or as it would by itself. Refused:
       out_of_memory. */
    result<done> renew(std::uint64_t room = 0) { return map_.renew(room); }

    /* Deletes what no pin keeps of all that was overwritten and erased, but for the last 61 of each
       other thread. The map does so by itself, now and then. */
    result<done> collect()
    {
        return inside::answer(samvolip_map_collect(native_handle()), done());
    }

    /* What happened so far, and how large the map is; and how many objects wait for pins. */
    result<samvolip_map_figures> figures() const { return map_.figures(); }
    result<samvolip::object_figures> object_figures() const
    {
        samvolip::object_figures figures{};
        const int code = samvolip_map_look_at_objects(native_handle(), &figures);
        return inside::answer(code, figures);
    }

    /* ---- */

    /* Gives back this thread's seat, and shows others what it has retired, as its end does. It may
       call again. */
    void leave()
    {
        samvolip_map_collect(native_handle());
        map_.leave();
    }

    /* For the functions of samvolip_map.h and samvolip_objects.h. */
    samvolip_map *native_handle() const noexcept { return map_.native_handle(); }

private:
    explicit object_map(samvolip::map made) noexcept : map_(std::move(made)) {}

    static void deletes(void *object)
    {
        inside::tell_got(object);
        delete static_cast<T *>(object);
    }

    /* Makes a write, which returns PRESENT if it took out the object that it wrote to its argument;
       and retires that. The memory for it is taken before. */
    template <class Write> result<bool> exchange(Write &&write)
    {
        std::uint64_t before = 0;
        int code = samvolip_map_ready(native_handle());
        if (code >= 0)
            code = write(&before);
        if (code > 0)
            samvolip_map_retire(native_handle(), reinterpret_cast<void *>(before), deletes);
        return inside::answer(code, code > 0);
    }

    template <class As, class Function> result<std::uint64_t> show(Function &&function) const
    {
        const auto pinned = try_pin(); /* before the walk, which may stay with what is replaced since */
        if (!pinned.has_value())
            return pinned.error();
        auto walk = map_.walk();
        if (!walk.has_value())
            return walk.error();
        std::uint64_t shown = 0;
        auto next = walk->next();
        for (; next.has_value() && *next; next = walk->next(), shown++)
            function((*next)->key, *inside::object_of<As>((*next)->value));
        if (!next.has_value())
            return next.error();
        return shown;
    }

    samvolip::map map_;
};

} // namespace samvolip

#endif
