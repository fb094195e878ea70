// Counts the numbers of standard input on several threads.
//
//     count THREADS [TOP] < NUMBERS
//
// NUMBERS has a number on each line (languages/c/examples/numbers.awk writes some). The threads take the lines in turn. One map has
// how often each number was there, and another one at which line it was there first. At the end it prints the TOP most frequent numbers
// (5 by default), each with both. The output is the same for any number of threads. What is refused ends the program with a line on
// standard error.
#include "samvolip.hpp"

#include <algorithm>
#include <iostream>
#include <thread>

namespace {

struct maps {
    samvolip::map counts, firsts;
};

// Counts the lines of one thread.
void count(maps &all, const std::vector<std::uint64_t> &lines, std::size_t first, std::size_t step)
{
    for (std::size_t i = first; i < lines.size(); i += step) {
        all.counts.add(lines[i], 1).value();
        all.firsts.fetch_min(lines[i], i + 1).value();
    }
}

// All lines of standard input. A line that isn't a key ends the program.
std::vector<std::uint64_t> read_lines()
{
    std::vector<std::uint64_t> lines;
    for (std::uint64_t number; std::cin >> number;) {
        if (number > SAMVOLIP_KEY_MAX)
            throw std::runtime_error("line " + std::to_string(lines.size() + 1) + " isn't a key");
        lines.push_back(number);
    }
    if (!std::cin.eof())
        throw std::runtime_error("line " + std::to_string(lines.size() + 1) + " isn't a number");
    return lines;
}

bool comes_first(const samvolip::entry &a, const samvolip::entry &b)
{
    return a.value != b.value ? a.value > b.value : a.key < b.key;
}

void run(unsigned threads_count, std::size_t top)
{
    const std::vector<std::uint64_t> lines = read_lines();
    maps all;
    std::vector<std::thread> threads;
    for (unsigned i = 0; i < threads_count; i++)
        threads.emplace_back([&, i] { count(all, lines, i, threads_count); });
    for (std::thread &one : threads)
        one.join();

    std::vector<samvolip::entry> entries = all.counts.snapshot().value();
    std::sort(entries.begin(), entries.end(), comes_first);
    std::cout << lines.size() << " lines, " << entries.size() << " numbers\n";
    entries.resize(std::min(entries.size(), top));
    for (const auto &[number, times] : entries)
        std::cout << number << ": " << times << " times, first at line " << *all.firsts.get(number).value() << "\n";
}

} // namespace

int main(int count, char **words)
{
    const unsigned long threads_count = count > 1 ? std::strtoul(words[1], nullptr, 10) : 1;
    if (threads_count < 1 || threads_count > 1000) {
        std::cerr << "usage: count THREADS [TOP] < NUMBERS, with 1 to 1000 threads\n";
        return 2;
    }
    try {
        run(unsigned(threads_count), count > 2 ? std::strtoul(words[2], nullptr, 10) : 5);
    } catch (const std::exception &what) {
        std::cerr << "count: " << what.what() << "\n";
        return 1;
    }
    return 0;
}
