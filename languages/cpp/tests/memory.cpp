// Every call of C++ that takes memory, made again where it is refused. Run under .ci/refuse.c, with each request refused in turn:
// nothing is lost by a refusal, and all memory is given back. It prints nothing, since that takes memory too.
#include "samvolip_objects.hpp"
#include "samvolip_seats.hpp"

#include "../../c/tests/expect.h"

using samvolip::fault;

namespace {

unsigned refusals;

// What a call answers, which is made again if it is refused for want of memory.
template <class Call> auto made(Call call)
{
    for (;;) {
        auto answer = call();
        if (answer.has_value())
            return *std::move(answer);
        EXPECT(answer.error().why() == fault::out_of_memory && ++refusals == 1);
    }
}

void has_keys(const std::vector<samvolip::entry> &entries, std::uint64_t count)
{
    EXPECT(entries.size() == count);
    for (auto [key, value] : entries)
        EXPECT(key == value << 16 && value < count);
}

// A map that grows by itself and by hand, is listed, walked over and cleared.
void of_a_map()
{
    samvolip::options options;
    options.room = 10;
    options.threads = 2;
    samvolip::map map = made([&] { return samvolip::map::open(options); });
    for (std::uint64_t i = 0; i < 200; i++)
        EXPECT(made([&] { return map.insert_or_assign(i << 16, i); }));
    has_keys(made([&] { return map.snapshot(); }), 200);
    made([&] { return map.renew(1000); });
    {
        samvolip::walk walk = made([&] { return map.walk(); });
        made([&] { return map.renew(); });
        std::uint64_t shown = 0, sum = 0;
        for (; const auto next = walk.next().value(); shown++)
            sum += next->key == next->value << 16 ? next->value : 0;
        EXPECT(shown == 200 && sum == 199 * 200 / 2);
    }
    const auto loop = [&]() -> samvolip::result<std::size_t> {
        try {
            std::size_t shown = 0;
            for (auto [key, value] : map)
                shown += key == value << 16;
            return shown;
        } catch (const samvolip::refused &what) {
            return what.error();
        }
    };
    EXPECT(made(loop) == 200);
    EXPECT(map.size().value() == 200);
    std::uint64_t gone = 0;
    made([&] { return map.clear([&](std::uint64_t, std::uint64_t) { gone++; }); });
    EXPECT(gone == 200 && map.size().value() == 0);
    made([&] { return map.add(1, 1); });
    samvolip::map moved = made([&] { return samvolip::map::open(); });
    moved = std::move(map);
    EXPECT(moved.get(1).value() == 1u);
}

// Objects that are overwritten, updated and erased: more of them than one piece of memory remembers.
void of_objects()
{
    static int alive;
    struct object {
        explicit object(std::uint64_t number) : number(number) { alive++; }
        ~object() { alive--; }
        std::uint64_t number;
    };
    const auto fresh = [](std::uint64_t number) {
        std::unique_ptr<object> one(new (std::nothrow) object(number));
        EXPECT(one || ++refusals == 1);
        return one ? std::move(one) : std::make_unique<object>(number);
    };
    {
        auto map = made([] { return samvolip::object_map<object>::open(); });
        for (std::uint64_t i = 0; i < 100; i++) {
            auto next = fresh(i);
            EXPECT(made([&] { return map.insert_or_assign(i % 50, std::move(next)); }) == (i < 50) && !next);
        }
        const auto pin = made([&] { return map.try_pin(); });
        for (std::uint64_t i = 0; i < 70; i++)
            EXPECT(made([&] { return map.compute(7, [&](const object *there) { return fresh(there->number + 1); }); })->number == 58 + i);
        EXPECT(pin.get(7)->number == 127);
        made([&] { return map.erase_if([](std::uint64_t key, const object &) { return key > 20; }); }); // some, if it is refused
        EXPECT(map.size().value() == 21);
        for (std::uint64_t i = 0; i < 10; i++)
            EXPECT(made([&] { return map.erase(i); }) && !made([&] { return map.try_emplace(15, i); }));
        EXPECT(made([&] { return map.for_each([](std::uint64_t, object &) {}); }) == 11 && map.object_figures()->retired == 159);
    }
    EXPECT(alive == 0);
}

void of_seats()
{
    samvolip::seat all = made([] { return samvolip::seat::open({{3, 4}, 2, 3, 1, UINT32_MAX, 8}); });
    samvolip::seat other = made([&] { return all.split(); });
    for (std::uint64_t i = 0; i < 12; i++)
        EXPECT((i % 2 ? all : other).insert_or_assign(i << 16, i).value());
    EXPECT(all.join(std::move(other)).has_value() && made([&] { return all.settle(); }) == 12);
    has_keys(made([&] { return all.entries(); }), 12);
    for (unsigned seats : {5u, 2u}) {
        const samvolip::shape next = {{3, seats == 5 ? 6u : 4u}, 2, seats, 1, UINT32_MAX, 8};
        made([&] {
            auto answer = all.renew(next);
            EXPECT(all.get(11 << 16).value() == 11u);
            return answer;
        });
        has_keys(made([&] { return all.entries(); }), 12);
    }
    samvolip::ended ended = made([&] { return all.close(); });
    has_keys(made([&] { return ended.entries(); }), 12);

    // one that isn't closed
    samvolip::seat dropped = made([] { return samvolip::seat::open({{3, 4}, 2, 3, 1, UINT32_MAX, 8}); });
    EXPECT(dropped.add(1, 1).has_value());
}

} // namespace

int main()
{
    of_a_map();
    of_objects();
    of_seats();
    return 0;
}
