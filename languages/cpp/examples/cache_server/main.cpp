// A cache that speaks the Redis protocol, over a map of objects: see README.md.
#include "options.hpp"
#include "server.hpp"

#include <cerrno>
#include <csignal>
#include <exception>
#include <iostream>
#include <stdexcept>
#include <string_view>
#include <sys/signalfd.h>
#include <system_error>

namespace {

// A descriptor that can be read when the program has to end. All threads begin with these signals
// blocked.
cache::descriptor signals_to_end()
{
    sigset_t ends;
    sigemptyset(&ends);
    sigaddset(&ends, SIGTERM);
    sigaddset(&ends, SIGINT);
    pthread_sigmask(SIG_BLOCK, &ends, nullptr);
    cache::descriptor made(::signalfd(-1, &ends, SFD_CLOEXEC));
    if (!made.is_open())
        throw std::system_error(errno, std::generic_category(), "signalfd");
    return made;
}

} // namespace

int main(int count, char **words)
{
    if (count == 2 && std::string_view(words[1]) == "--help") {
        std::cout << cache::usage;
        return 0;
    }
    try {
        const cache::options how = cache::options_of(count, words);
        const cache::descriptor end = signals_to_end();
        cache::server serves(how);
        std::cout << "cache_server: ready on 127.0.0.1:" << serves.port() << std::endl;
        serves.run(end);
    } catch (const std::invalid_argument &what) {
        std::cerr << "cache_server: " << what.what() << "; --help tells more\n";
        return 2;
    } catch (const std::exception &what) {
        std::cerr << "cache_server: " << what.what() << "\n";
        return 1;
    }
    return 0;
}
