// A program of C++ for .ci/installed: four threads add to one map, and an object of another one is printed.
#include <array>
#include <cstdint>
#include <cstdio>
#include <memory>
#include <samvolip_objects.hpp>
#include <thread>

int main()
{
    samvolip::map map;
    std::array<std::thread, 4> threads;
    for (auto &thread : threads)
        thread = std::thread([&map] {
            for (std::uint64_t i = 0; i < 20000; i++)
                map.add(i % 1000, 1).value();
        });
    for (auto &thread : threads)
        thread.join();
    samvolip::object_map<int> objects;
    objects.insert_or_assign(7, std::make_unique<int>(map.get(7).value().value())).value();
    const auto pin = objects.pin();
    std::printf("%d keys, %d at 7\n", static_cast<int>(map.size().value()), *pin.get(7));
}
