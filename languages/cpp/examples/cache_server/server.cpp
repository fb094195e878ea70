// Opens the port, starts the threads, and hands out connections until it is told to end.
#include "server.hpp"

#include <cerrno>
#include <netinet/in.h>
#include <netinet/tcp.h>
#include <poll.h>
#include <string_view>
#include <sys/socket.h>
#include <system_error>

namespace cache {

namespace {

[[noreturn]] void fail(const char *call)
{
    throw std::system_error(errno, std::generic_category(), call);
}

// A socket that listens on a port of 127.0.0.1, which is written back if it was 0.
descriptor listening(std::uint64_t &port)
{
    descriptor made(::socket(AF_INET, SOCK_STREAM | SOCK_CLOEXEC | SOCK_NONBLOCK, 0));
    const int yes = 1;
    sockaddr_in at{};
    at.sin_family = AF_INET;
    at.sin_port = htons(std::uint16_t(port));
    at.sin_addr.s_addr = htonl(INADDR_LOOPBACK);
    auto *address = reinterpret_cast<sockaddr *>(&at);
    socklen_t size = sizeof at;
    if (!made.is_open() ||
        ::setsockopt(made.number(), SOL_SOCKET, SO_REUSEADDR, &yes, sizeof yes) != 0)
        fail("socket");
    if (::bind(made.number(), address, size) != 0 || ::listen(made.number(), 1024) != 0)
        fail("listen");
    if (::getsockname(made.number(), address, &size) != 0)
        fail("getsockname");
    port = ntohs(at.sin_port);
    return made;
}

} // namespace

// Two threads beside the loops count: the keeper, and the one that takes connections.
server::server(const options &how)
    : how_(how), listens_(listening(how_.port)), store_(how_, how_.threads + 2),
      mine_(store_.counted[how_.threads]), keeper_(store_, store_.counted[how_.threads + 1], how_)
{
    for (std::size_t i = 0; i < how_.threads; i++)
        loops_.push_back(std::make_unique<loop>(store_, store_.counted[i], how_));
}

void server::run(const descriptor &end)
{
    pollfd waits[] = {{end.number(), POLLIN, 0}, {listens_.number(), POLLIN, 0}};
    while (::poll(waits, 2, -1) < 0 || waits[0].revents == 0)
        if (waits[1].revents != 0)
            take();
}

// Where there are no descriptors or no memory left, the client waits some time for another try.
void server::take()
{
    descriptor socket(::accept4(listens_.number(), nullptr, nullptr, SOCK_CLOEXEC | SOCK_NONBLOCK));
    if (!socket.is_open()) {
        if (errno == EMFILE || errno == ENFILE || errno == ENOBUFS || errno == ENOMEM)
            ::poll(nullptr, 0, 10);
        return;
    }
    const int yes = 1;
    ::setsockopt(socket.number(), IPPROTO_TCP, TCP_NODELAY, &yes, sizeof yes);
    const std::int64_t open = store_.sum(&figures::accepted) - store_.sum(&figures::closed);
    if (open >= std::int64_t(how_.connections)) {
        refuse(socket);
        return;
    }
    mine_.accepted.add(1);
    try {
        loops_[next_]->adopt(std::move(socket));
        next_ = (next_ + 1) % loops_.size();
    } catch (const std::bad_alloc &) {
        mine_.closed.add(1);
    }
}

void server::refuse(const descriptor &socket) const noexcept
{
    constexpr std::string_view why = "-ERR max number of clients reached\r\n";
    (void)::send(socket.number(), why.data(), why.size(), MSG_NOSIGNAL | MSG_DONTWAIT);
    ::shutdown(socket.number(), SHUT_WR);
}

} // namespace cache
