// The server: it takes connections on 127.0.0.1, and hands them to its loops in turn.
#pragma once

#include "descriptor.hpp"
#include "keeper.hpp"
#include "loop.hpp"
#include "options.hpp"
#include "store.hpp"

#include <memory>
#include <vector>

namespace cache {

class server {
public:
    // It listens at once.
    explicit server(const options &how);

    std::uint64_t port() const noexcept { return how_.port; }
    // Takes connections until this descriptor can be read.
    void run(const descriptor &end);

private:
    void take();
    void refuse(const descriptor &socket) const noexcept;

    options how_;
    const descriptor listens_;
    store store_;
    figures &mine_;
    keeper keeper_;
    std::vector<std::unique_ptr<loop>> loops_;
    std::size_t next_ = 0; // the loop that gets the next connection
};

} // namespace cache
