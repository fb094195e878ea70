// How a connection is served: bytes are received, whole requests answered in their order, replies
// sent as the client takes them; and how it ends.
#include "connection.hpp"

#include <cerrno>
#include <sys/epoll.h>
#include <sys/socket.h>

namespace cache {

std::uint32_t connection::serve(std::uint32_t events, commands &by)
{
    if (events & EPOLLERR)
        return 0;
    if (is_ending_)
        discard();
    else if (events & (EPOLLIN | EPOLLHUP) && !has_more_)
        receive();
    answer(by);
    send();
    if (is_lost_)
        return 0;
    const bool waits = has_more_ || !out_.unsent().empty();
    if (is_ending_ && !waits)
        return end(by.time());
    const std::uint32_t writes = waits ? EPOLLOUT : 0u;
    const std::uint32_t reads = is_over_ || is_ending_ || has_more_ ? 0u : EPOLLIN;
    return writes | reads;
}

void connection::receive()
{
    char *to = in_.make_room(chunk);
    const ssize_t size = ::recv(socket_.number(), to, in_.room(), 0);
    if (size > 0)
        in_.came(std::size_t(size));
    is_over_ = size == 0;
    is_lost_ = size < 0 && errno != EAGAIN && errno != EINTR;
}

void connection::discard()
{
    char bytes[chunk];
    const ssize_t size = ::recv(socket_.number(), bytes, sizeof bytes, 0);
    is_over_ = size == 0;
    is_lost_ = size < 0 && errno != EAGAIN && errno != EINTR;
}

void connection::answer(commands &by)
{
    has_more_ = false;
    while (!is_ending_) {
        if (out_.unsent().size() >= most_unsent) {
            has_more_ = true;
            return;
        }
        switch (parser_.parse(in_.bytes())) {
        case request_parser::state::partial: return;
        case request_parser::state::broken:
            out_.error(std::string("ERR ") + parser_.fault());
            is_ending_ = true;
            break;
        case request_parser::state::whole:
            if (!parser_.words().empty())
                is_ending_ = !by.run(parser_.words(), out_);
            in_.take(parser_.size());
            parser_.begin();
        }
    }
}

void connection::send()
{
    const std::string_view bytes = out_.unsent();
    if (bytes.empty())
        return;
    const ssize_t size = ::send(socket_.number(), bytes.data(), bytes.size(), MSG_NOSIGNAL);
    if (size >= 0)
        out_.sent(std::size_t(size));
    else
        is_lost_ = errno != EAGAIN && errno != EINTR;
}

// All is sent: tells the client that nothing follows, and waits for its end.
std::uint32_t connection::end(milliseconds now)
{
    if (is_over_)
        return 0;
    if (ends_ == INT64_MAX) {
        ::shutdown(socket_.number(), SHUT_WR);
        ends_ = now + time_to_end;
    }
    return EPOLLIN;
}

} // namespace cache
