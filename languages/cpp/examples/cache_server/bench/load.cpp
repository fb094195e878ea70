// Asks a cache on 127.0.0.1 for as much as it answers, by the protocol of Redis or of memcached.
//
//     load redis|memcached PORT SECONDS THREADS CONNECTIONS PIPELINE KEYS SIZE SETS
//
// Each of the threads has so many connections. On each of these it sends PIPELINE requests at once,
// and the next ones when all are answered: of ten SETS are sets of SIZE bytes, and the others gets,
// at one of so many KEYS by chance. With 0 SECONDS each key is set once instead. It prints how many
// requests were answered in a second, and how many of the gets found something, in percent.
#include "../descriptor.hpp"

#include <arpa/inet.h>
#include <atomic>
#include <chrono>
#include <cstdint>
#include <cstdio>
#include <cstdlib>
#include <memory>
#include <poll.h>
#include <stdexcept>
#include <string>
#include <sys/socket.h>
#include <thread>
#include <vector>

namespace {

struct plan {
    bool is_redis;
    unsigned port, threads, connections, pipeline;
    double seconds;
    std::uint64_t keys, size, sets;
};

struct totals {
    std::uint64_t answered = 0, found = 0, missed = 0;
};

std::uint64_t next_of(std::uint64_t &chance)
{
    std::uint64_t mixed = chance += 0x9e3779b97f4a7c15;
    mixed = (mixed ^ mixed >> 30) * 0xbf58476d1ce4e5b9;
    return mixed ^ mixed >> 31;
}

void add_request(std::string &to, const plan &by, std::uint64_t key, bool is_set)
{
    const std::string name = "key:" + std::to_string(1000000000 + key), value(by.size, 'x');
    const auto text = [](const std::string &bytes) {
        return "$" + std::to_string(bytes.size()) + "\r\n" + bytes + "\r\n";
    };
    if (by.is_redis)
        to += is_set ? "*3\r\n$3\r\nSET\r\n" + text(name) + text(value)
                     : "*2\r\n$3\r\nGET\r\n" + text(name);
    else
        to += is_set ? "set " + name + " 0 0 " + std::to_string(by.size) + "\r\n" + value + "\r\n"
                     : "get " + name + "\r\n";
}

// A connection, and what of its replies is still to come.
class client {
public:
    explicit client(unsigned port) : socket_(::socket(AF_INET, SOCK_STREAM, 0))
    {
        sockaddr_in at{};
        at.sin_family = AF_INET;
        at.sin_port = htons(std::uint16_t(port));
        at.sin_addr.s_addr = htonl(INADDR_LOOPBACK);
        if (::connect(number(), reinterpret_cast<sockaddr *>(&at), sizeof at) != 0)
            throw std::runtime_error("no connection");
    }
    int number() const { return socket_.number(); }

    void ask(const std::string &requests, unsigned count)
    {
        for (std::size_t sent = 0; sent < requests.size();) {
            const ssize_t size = ::send(number(), &requests[sent], requests.size() - sent, 0);
            if (size <= 0)
                throw std::runtime_error("the connection is lost");
            sent += std::size_t(size);
        }
        waits_ = count;
    }

    // Reads what has come. Whether all is answered.
    bool answered(totals &all)
    {
        char bytes[1 << 16];
        const ssize_t size = ::recv(number(), bytes, sizeof bytes, 0);
        if (size <= 0)
            throw std::runtime_error("the connection is lost");
        come_.append(bytes, std::size_t(size));
        std::size_t at = 0;
        while (waits_ > 0 && take(at, all)) {
        }
        come_.erase(0, at);
        return waits_ == 0;
    }

private:
    // Takes a line, with the bytes that it announces, if all that has come.
    bool take(std::size_t &at, totals &all)
    {
        const std::size_t end = come_.find("\r\n", at);
        if (end == come_.npos)
            return false;
        const char kind = come_[at];
        const bool is_text = (kind == '$' && come_[at + 1] != '-') || kind == 'V';
        if (kind == '-' || kind == 'C' || (kind == 'E' && come_[at + 1] == 'R'))
            throw std::runtime_error("an error: " + come_.substr(at, end - at));
        std::size_t after = end + 2;
        if (is_text) {
            const std::size_t number = kind == '$' ? at + 1 : come_.rfind(' ', end) + 1;
            after += std::strtoul(&come_[number], nullptr, 10) + 2;
            if (after > come_.size())
                return false;
        }
        all.found += is_text;
        all.missed += (kind == '$' && !is_text) || (kind == 'E' && !had_text_);
        had_text_ = kind == 'V';
        all.answered += kind != 'V';
        waits_ -= kind != 'V';
        at = after;
        return true;
    }

    cache::descriptor socket_;
    std::string come_;
    unsigned waits_ = 0;
    bool had_text_ = false;
};

// Each key of a thread's part is set once.
void fill(const plan &by, unsigned part, totals &all)
{
    client one(by.port);
    for (std::uint64_t key = part; key < by.keys;) {
        std::string requests;
        unsigned count = 0;
        for (; count < 64 && key < by.keys; count++, key += by.threads)
            add_request(requests, by, key, true);
        one.ask(requests, count);
        while (!one.answered(all)) {
        }
    }
}

void run(const plan &by, unsigned part, const std::atomic<bool> &over, totals &all)
{
    std::vector<std::unique_ptr<client>> clients;
    std::vector<pollfd> waits;
    std::uint64_t chance = part;
    const auto ask = [&](client &one) {
        std::string requests;
        for (unsigned i = 0; i < by.pipeline; i++)
            add_request(requests, by, next_of(chance) % by.keys, next_of(chance) % 10 < by.sets);
        one.ask(requests, by.pipeline);
    };
    for (unsigned i = 0; i < by.connections; i++) {
        clients.push_back(std::make_unique<client>(by.port));
        waits.push_back({clients.back()->number(), POLLIN, 0});
        ask(*clients.back());
    }
    while (!over) {
        ::poll(waits.data(), waits.size(), 100);
        for (std::size_t i = 0; i < clients.size(); i++)
            if (waits[i].revents != 0 && clients[i]->answered(all))
                ask(*clients[i]);
    }
}

void measure(const plan &by)
{
    std::vector<totals> each(by.threads);
    std::atomic<bool> over{false};
    std::vector<std::thread> threads;
    const auto begun = std::chrono::steady_clock::now();
    for (unsigned i = 0; i < by.threads; i++)
        threads.emplace_back([&, i] {
            try {
                by.seconds > 0 ? run(by, i, over, each[i]) : fill(by, i, each[i]);
            } catch (const std::exception &what) {
                std::fprintf(stderr, "load: %s\n", what.what());
                std::exit(1);
            }
        });
    std::this_thread::sleep_for(std::chrono::duration<double>(by.seconds));
    over = true;
    for (std::thread &one : threads)
        one.join();
    const std::chrono::duration<double> took = std::chrono::steady_clock::now() - begun;
    totals all;
    for (const totals &one : each) {
        all.answered += one.answered;
        all.found += one.found;
        all.missed += one.missed;
    }
    const double gets = double(all.found + all.missed);
    std::printf("%.0f %.1f\n", double(all.answered) / took.count(),
                gets > 0 ? 100 * double(all.found) / gets : 0);
}

} // namespace

int main(int count, char **words)
{
    if (count != 10) {
        std::fprintf(stderr, "usage: load redis|memcached PORT SECONDS THREADS CONNECTIONS "
                             "PIPELINE KEYS SIZE SETS\n");
        return 2;
    }
    const auto number = [words](int i) { return std::strtoul(words[i], nullptr, 10); };
    measure({std::string(words[1]) == "redis", unsigned(number(2)), unsigned(number(4)),
             unsigned(number(5)), unsigned(number(6)), std::strtod(words[3], nullptr), number(7),
             number(8), number(9)});
    return 0;
}
