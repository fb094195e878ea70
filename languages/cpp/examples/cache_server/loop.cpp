// A loop's thread: it waits for events, serves connections, takes new ones, and each second closes
// those whose time is over.
#include "loop.hpp"

#include <cerrno>
#include <sys/epoll.h>
#include <sys/eventfd.h>
#include <system_error>

namespace cache {

namespace {

constexpr int events_at_once = 256;
constexpr milliseconds period = 1000; // after which all connections are looked at

descriptor checked(int number, const char *call)
{
    if (number < 0)
        throw std::system_error(errno, std::generic_category(), call);
    return descriptor(number);
}

} // namespace

loop::loop(store &of, figures &mine, const options &how)
    : how_(how), store_(of, mine), commands_(store_, how),
      epoll_(checked(::epoll_create1(EPOLL_CLOEXEC), "epoll_create1")),
      wakes_(checked(::eventfd(0, EFD_CLOEXEC | EFD_NONBLOCK), "eventfd"))
{
    epoll_event waits{};
    waits.events = EPOLLIN;
    waits.data.fd = wakes_.number();
    if (::epoll_ctl(epoll_.number(), EPOLL_CTL_ADD, wakes_.number(), &waits) != 0)
        throw std::system_error(errno, std::generic_category(), "epoll_ctl");
    thread_ = std::thread([this] { run(); });
}

loop::~loop()
{
    ends_ = true;
    wake();
    thread_.join();
}

void loop::adopt(descriptor socket)
{
    {
        const std::lock_guard<std::mutex> held(lock_);
        new_.push_back(std::move(socket));
    }
    wake();
}

void loop::wake() noexcept { ::eventfd_write(wakes_.number(), 1); }

void loop::run()
{
    epoll_event happened[events_at_once];
    milliseconds looked = time_now();
    while (!ends_) {
        const int count = ::epoll_wait(epoll_.number(), happened, events_at_once, int(period));
        store_.set_time(time_now());
        for (int i = 0; i < count; i++) {
            if (happened[i].data.fd != wakes_.number())
                serve(happened[i].data.fd, happened[i].events);
        }
        take_new();
        if (store_.now() - looked >= period) {
            looked = store_.now();
            look_after();
        }
    }
}

// After the events of one epoll_wait, which may be of sockets whose numbers new ones have by now.
void loop::take_new()
{
    eventfd_t unused;
    if (::eventfd_read(wakes_.number(), &unused) != 0)
        return;
    std::vector<descriptor> come;
    {
        const std::lock_guard<std::mutex> held(lock_);
        come.swap(new_);
    }
    for (descriptor &one : come)
        welcome(std::move(one));
}

// Without memory it is closed.
void loop::welcome(descriptor socket) noexcept
{
    const int number = socket.number();
    try {
        if (connections_.size() <= std::size_t(number))
            connections_.resize(std::size_t(number) + 1);
        connections_[std::size_t(number)] =
            std::make_unique<connection>(std::move(socket), how_.request);
        epoll_event waits{};
        waits.events = connections_[std::size_t(number)]->waits_for = EPOLLIN;
        waits.data.fd = number;
        if (::epoll_ctl(epoll_.number(), EPOLL_CTL_ADD, number, &waits) != 0)
            drop(number);
    } catch (const std::bad_alloc &) {
        store_.counted().closed.add(1);
    }
}

// What is thrown, for want of memory, ends this connection alone.
void loop::serve(int number, std::uint32_t events) noexcept
{
    connection &one = *connections_[std::size_t(number)];
    std::uint32_t next = 0;
    try {
        next = one.serve(events, commands_);
    } catch (const std::exception &) {
    }
    if (next == 0) {
        drop(number);
    } else if (next != one.waits_for) {
        epoll_event waits{};
        waits.events = one.waits_for = next;
        waits.data.fd = number;
        ::epoll_ctl(epoll_.number(), EPOLL_CTL_MOD, number, &waits);
    }
}

void loop::drop(int number) noexcept
{
    connections_[std::size_t(number)].reset();
    store_.counted().closed.add(1);
}

void loop::look_after()
{
    store_.rest();
    for (std::size_t i = 0; i < connections_.size(); i++)
        if (connections_[i] && connections_[i]->is_late(store_.now()))
            drop(int(i));
}

} // namespace cache
