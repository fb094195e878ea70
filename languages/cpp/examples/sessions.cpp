// Sessions of visitors, as objects that many threads share.
//
//     sessions THREADS
//
// Visitors come by turns of the threads. Each visit puts a new session in the place of the old one, while others read it. Now and then
// the sessions of those who came rarely expire. The output is the same for any number of threads. What is refused ends the program with
// a line on standard error.
#include "samvolip_objects.hpp"

#include <iostream>
#include <string>
#include <thread>

namespace {

struct session {
    std::string name;
    std::uint64_t visits;
};

using sessions = samvolip::object_map<session>;

// A visit, and what the page says then.
std::string visit(sessions &all, std::uint64_t visitor)
{
    const auto mine = all.compute(visitor, [&](const session *old) {
        return std::make_unique<session>(old ? session{old->name, old->visits + 1} : session{"visitor " + std::to_string(visitor), 1});
    }).value(); // it is there as long as this has it, whoever comes meanwhile
    return mine->name + ": visit " + std::to_string(mine->visits);
}

void run(unsigned count)
{
    constexpr std::uint64_t visitors = 1000, visits = 100000;
    sessions all;
    std::vector<std::thread> threads;
    for (unsigned number = 0; number < count; number++)
        threads.emplace_back([&all, number, count] {
            for (std::uint64_t i = number; i < visits; i += count)
                visit(all, i * i % visitors);
        });
    for (std::thread &one : threads)
        one.join();

    const std::uint64_t expired = all.erase_if([](std::uint64_t, const session &one) { return one.visits < 500; }).value();
    std::cout << visit(all, 0) << "\n" << expired << " sessions expired, " << all.size().value() << " are left\n";
    std::uint64_t sum = 0;
    all.for_each([&](std::uint64_t, const session &one) { sum += one.visits; }).value();
    std::cout << sum << " visits in these, " << all.object_figures().value().retired << " sessions came and went\n";
}

} // namespace

int main(int count, char **words)
{
    const unsigned long threads = count == 2 ? std::strtoul(words[1], nullptr, 10) : 0;
    if (threads < 1 || threads > 1000) {
        std::cerr << "usage: sessions THREADS, with 1 to 1000 threads\n";
        return 2;
    }
    try {
        run(static_cast<unsigned>(threads));
    } catch (const std::exception &what) {
        std::cerr << "sessions: " << what.what() << "\n";
        return 1;
    }
    return 0;
}
