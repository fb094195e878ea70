// A client's connection: what came and isn't answered, and what is answered and isn't sent.
#pragma once

#include "clock.hpp"
#include "commands.hpp"
#include "descriptor.hpp"
#include "input.hpp"
#include "replies.hpp"
#include "requests.hpp"

#include <cstdint>

namespace cache {

class connection {
public:
    // A socket that doesn't block; a request may have so many bytes.
    connection(descriptor socket, std::size_t most) : socket_(std::move(socket)), parser_(most) {}

    // Reads, answers and sends as much as goes without waiting, at these events of epoll. Answers
    // which events it waits for next: 0, if it is over.
    //
    // While a client leaves most_unsent of its replies, no more of its requests are answered or read.
    // After QUIT and after a request that can't be understood it gets its replies, and then an end;
    // what it sends meanwhile is thrown away. Else closing would reset the connection, and replies
    // would be lost.
    std::uint32_t serve(std::uint32_t events, commands &by);

    // Whether it has had its time to end.
    bool is_late(milliseconds now) const noexcept { return now > ends_; }

    std::uint32_t waits_for = 0; // as the loop has told epoll

private:
    void receive();
    void discard();
    void answer(commands &by);
    void send();
    std::uint32_t end(milliseconds now);

    static constexpr std::size_t chunk = 16 << 10;
    static constexpr std::size_t most_unsent = 1 << 20;
    static constexpr milliseconds time_to_end = 2000;

    descriptor socket_;
    request_parser parser_;
    input in_;
    replies out_;
    bool is_lost_ = false;    // the socket fails
    bool is_over_ = false;    // the client sends no more
    bool is_ending_ = false;  // no more is answered
    bool has_more_ = false;   // there may be whole requests that aren't answered
    milliseconds ends_ = INT64_MAX;
};

} // namespace cache
