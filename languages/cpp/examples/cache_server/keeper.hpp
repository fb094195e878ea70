// A thread that removes expired items, by a walk now and then.
#pragma once

#include "options.hpp"
#include "store.hpp"

#include <condition_variable>
#include <mutex>
#include <thread>

namespace cache {

class keeper {
public:
    // It begins at once, and ends when it is destroyed.
    keeper(store &of, figures &mine, const options &how);
    ~keeper();

private:
    void run();

    const milliseconds period_;
    access store_;
    std::mutex lock_;
    std::condition_variable ended_;
    bool ends_ = false; // with the lock
    std::thread thread_;
};

} // namespace cache
