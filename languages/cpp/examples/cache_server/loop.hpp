// A thread that serves connections, by epoll.
#pragma once

#include "connection.hpp"
#include "descriptor.hpp"
#include "options.hpp"
#include "store.hpp"

#include <atomic>
#include <memory>
#include <mutex>
#include <thread>
#include <vector>

namespace cache {

class loop {
public:
    // It begins at once, and ends when it is destroyed. What was answered by then is sent, unless a
    // client didn't take it.
    loop(store &of, figures &mine, const options &how);
    ~loop();

    // Takes over a connection. Any thread calls it.
    void adopt(descriptor socket);

private:
    void run();
    void wake() noexcept;
    void take_new();
    void welcome(descriptor socket) noexcept;
    void serve(int number, std::uint32_t events) noexcept;
    void drop(int number) noexcept;
    void look_after();

    const options &how_;
    access store_;
    commands commands_;
    const descriptor epoll_, wakes_;
    std::vector<std::unique_ptr<connection>> connections_; // by their sockets' numbers
    std::mutex lock_;
    std::vector<descriptor> new_; // with the lock
    std::atomic<bool> ends_{false};
    std::thread thread_;
};

} // namespace cache
