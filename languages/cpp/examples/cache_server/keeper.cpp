// The keeper's thread: it sleeps, removes expired items where any item has an expiry, and ends when
// it is told.
#include "keeper.hpp"

#include <algorithm>
#include <chrono>

namespace cache {

keeper::keeper(store &of, figures &mine, const options &how)
    : period_(milliseconds(how.sweep)), store_(of, mine), thread_([this] { run(); })
{
}

keeper::~keeper()
{
    {
        const std::lock_guard<std::mutex> held(lock_);
        ends_ = true;
    }
    ended_.notify_one();
    thread_.join();
}

// It waits nine times as long as a walk took, at least, so it takes a tenth of a processor at most.
void keeper::run()
{
    std::unique_lock<std::mutex> held(lock_);
    milliseconds took = 0;
    while (!ended_.wait_for(held, std::chrono::milliseconds(std::max(period_, 9 * took)),
                            [this] { return ends_; })) {
        held.unlock();
        const milliseconds begun = time_now();
        store_.set_time(begun);
        if (store_.all().sum(&figures::expiring) > 0)
            store_.sweep();
        took = time_now() - begun;
        held.lock();
    }
}

} // namespace cache
