// The commands: what a request's words ask of the store, and the replies.
#pragma once

#include "replies.hpp"
#include "store.hpp"

#include <string>
#include <string_view>
#include <vector>

namespace cache {

class commands {
public:
    using words = std::vector<std::string_view>;

    commands(access &by, const options &how) : by_(by), how_(how) {}

    // Answers a request, and says whether the connection goes on.
    bool run(const words &request, replies &to);
    milliseconds time() const noexcept { return by_.now(); }

private:
    struct command {
        std::string_view name;
        std::size_t least, most; // words
        void (commands::*call)(const words &, replies &);
    };
    static const command all[];

    void get(const words &request, replies &to);
    void mget(const words &request, replies &to);
    void exists(const words &request, replies &to);
    void set(const words &request, replies &to);
    void del(const words &request, replies &to);
    void incr(const words &request, replies &to);
    void dbsize(const words &request, replies &to);
    void ping(const words &request, replies &to);
    void info(const words &request, replies &to);
    void command_list(const words &request, replies &to);
    void config(const words &request, replies &to);
    void quit(const words &request, replies &to);
    void foreign(const words &request, replies &to);

    access &by_;
    const options &how_;
    bool goes_on_ = true;
};

// What INFO answers.
std::string information(const store &of, const options &how);

} // namespace cache
