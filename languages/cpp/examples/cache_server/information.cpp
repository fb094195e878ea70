// What INFO answers, in Redis' form.
#include "commands.hpp"

#include <unistd.h>

namespace cache {

std::string information(const store &of, const options &how)
{
    const auto map = of.items.figures().value_or(samvolip_map_figures{});
    const auto objects = of.items.object_figures().value_or(samvolip::object_figures{});
    std::string text;
    const auto line = [&text](const char *name, auto number) {
        text += name;
        text += ':' + std::to_string(number) + "\r\n";
    };
    text += "# Server\r\nserver_name:samvolip cache_server\r\n";
    line("process_id", ::getpid());
    line("tcp_port", how.port);
    line("io_threads", how.threads);
    text += "\r\n# Clients\r\n";
    line("connected_clients", of.sum(&figures::accepted) - of.sum(&figures::closed));
    text += "\r\n# Memory\r\n";
    line("used_memory", of.sum(&figures::bytes));
    line("maxmemory", of.most_bytes);
    line("table_memory", map.slots * 16);
    line("objects_waiting", objects.waiting);
    text += "\r\n# Stats\r\n";
    line("total_connections_received", of.sum(&figures::accepted));
    line("total_commands_processed", of.sum(&figures::commands));
    line("keyspace_hits", of.sum(&figures::hits));
    line("keyspace_misses", of.sum(&figures::misses));
    line("expired_keys", of.sum(&figures::expired));
    line("evicted_keys", of.sum(&figures::evicted));
    line("renewals", map.renewals);
    text += "\r\n# Keyspace\r\ndb0:keys=" + std::to_string(of.sum(&figures::keys)) +
            ",expires=" + std::to_string(of.sum(&figures::expiring)) + "\r\n";
    return text;
}

} // namespace cache
