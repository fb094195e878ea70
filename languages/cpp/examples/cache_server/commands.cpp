// What each command does: it reads its words, asks the store, and writes its reply.
#include "commands.hpp"

#include <algorithm>
#include <charconv>

namespace cache {

namespace {

constexpr std::size_t any = SIZE_MAX;
constexpr char not_a_number[] = "ERR value is not an integer or out of range";
constexpr char no_memory[] = "OOM command not allowed when used memory > 'maxmemory'";

// Whether a word is a name, which is in capitals, in letters of any kind.
bool is_word(std::string_view word, std::string_view name) noexcept
{
    return std::equal(word.begin(), word.end(), name.begin(), name.end(), [](char a, char b) {
        return (a >= 'a' && a <= 'z' ? char(a - 'a' + 'A') : a) == b;
    });
}

// The first part of a word, without what would end a reply's line.
std::string shown(std::string_view word)
{
    std::string text(word.substr(0, 64));
    std::replace_if(text.begin(), text.end(), [](char c) { return c < ' ' || c > '~'; }, '?');
    return text;
}

// When an item expires, by the word after EX or PX. Answers why it can't, or nullptr.
const char *expiry_of(std::string_view word, milliseconds unit, milliseconds now,
                      milliseconds &expires) noexcept
{
    std::int64_t number = 0;
    const char *end = word.data() + word.size();
    const auto read = std::from_chars(word.data(), end, number);
    if (read.ec != std::errc() || read.ptr != end)
        return not_a_number;
    if (number <= 0 || number > (never - 1 - now) / unit)
        return "ERR invalid expire time in 'set' command";
    expires = now + number * unit;
    return nullptr;
}

// What stands behind the value of a SET.
struct set_words {
    milliseconds expires = never;
    condition asked = condition::none;
};

// Reads them, and answers what is wrong with them, or nullptr.
const char *read_set_words(const commands::words &request, milliseconds now, set_words &told)
{
    for (std::size_t i = 3; i < request.size(); i++) {
        const bool is_ex = is_word(request[i], "EX");
        if (told.asked == condition::none && is_word(request[i], "NX")) {
            told.asked = condition::absent;
        } else if (told.asked == condition::none && is_word(request[i], "XX")) {
            told.asked = condition::present;
        } else if (told.expires == never && (is_ex || is_word(request[i], "PX")) &&
                   i + 1 < request.size()) {
            const char *fault = expiry_of(request[++i], is_ex ? 1000 : 1, now, told.expires);
            if (fault)
                return fault;
        } else {
            return "ERR syntax error";
        }
    }
    return nullptr;
}

} // namespace

// GET and SET are the first to be compared with.
const commands::command commands::all[] = {
    {"GET", 2, 2, &commands::get},         {"SET", 3, any, &commands::set},
    {"INCR", 2, 2, &commands::incr},       {"DEL", 2, any, &commands::del},
    {"MGET", 2, any, &commands::mget},     {"EXISTS", 2, any, &commands::exists},
    {"PING", 1, 2, &commands::ping},       {"DBSIZE", 1, 1, &commands::dbsize},
    {"INFO", 1, any, &commands::info},     {"COMMAND", 1, any, &commands::command_list},
    {"CONFIG", 2, any, &commands::config}, {"QUIT", 1, any, &commands::quit},
    {"POST", 1, any, &commands::foreign},  {"HOST:", 1, any, &commands::foreign},
};

bool commands::run(const words &request, replies &to)
{
    by_.counted().commands.add(1);
    goes_on_ = true;
    const auto *one = std::find_if(std::begin(all), std::end(all), [&](const command &some) {
        return is_word(request.front(), some.name);
    });
    if (one == std::end(all))
        to.error("ERR unknown command '" + shown(request.front()) + "'");
    else if (request.size() < one->least || request.size() > one->most)
        to.error("ERR wrong number of arguments for '" + shown(request.front()) + "' command");
    else
        (this->*one->call)(request, to);
    return goes_on_;
}

/* ---- keys */

void commands::get(const words &request, replies &to)
{
    if (!by_.read(request[1], [&](std::string_view value) { to.text(value); }))
        to.nothing();
}

void commands::mget(const words &request, replies &to)
{
    const std::size_t begin = to.mark();
    to.array(request.size() - 1);
    for (std::size_t i = 1; i < request.size(); i++) {
        if (!by_.read(request[i], [&](std::string_view value) { to.text(value); }))
            to.nothing();
        if (to.mark() - begin > how_.reply) {
            to.take_back(begin);
            to.error("ERR the reply is too long");
            return;
        }
    }
}

void commands::exists(const words &request, replies &to)
{
    to.number(std::count_if(request.begin() + 1, request.end(), [&](std::string_view key) {
        return by_.read(key, [](std::string_view) {});
    }));
}

void commands::set(const words &request, replies &to)
{
    set_words told;
    if (const char *fault = read_set_words(request, by_.now(), told)) {
        to.error(fault);
        return;
    }
    switch (by_.set(request[1], request[2], told.expires, told.asked)) {
    case outcome::done: to.status("OK"); break;
    case outcome::unmet: to.nothing(); break;
    default: to.error(no_memory);
    }
}

void commands::del(const words &request, replies &to)
{
    std::int64_t erased = 0;
    for (std::size_t i = 1; i < request.size(); i++) {
        const outcome told = by_.erase(request[i]);
        if (told == outcome::no_memory) {
            to.error(no_memory);
            return;
        }
        erased += told == outcome::done;
    }
    to.number(erased);
}

void commands::incr(const words &request, replies &to)
{
    std::int64_t sum = 0;
    switch (by_.increment(request[1], sum)) {
    case outcome::done: to.number(sum); break;
    case outcome::not_a_number: to.error(not_a_number); break;
    case outcome::overflow: to.error("ERR increment or decrement would overflow"); break;
    default: to.error(no_memory);
    }
}

/* ---- the server */

void commands::dbsize(const words &, replies &to) { to.number(by_.all().sum(&figures::keys)); }

void commands::ping(const words &request, replies &to)
{
    if (request.size() == 1)
        to.status("PONG");
    else
        to.text(request[1]);
}

void commands::info(const words &, replies &to) { to.text(information(by_.all(), how_)); }

// What redis-cli asks for when it connects. It does without.
void commands::command_list(const words &, replies &to) { to.array(0); }

// What redis-benchmark asks for.
void commands::config(const words &request, replies &to)
{
    if (!is_word(request[1], "GET") || request.size() != 3) {
        to.error("ERR only CONFIG GET and one name are known");
        return;
    }
    const bool is_save = is_word(request[2], "SAVE");
    const bool is_known = is_save || is_word(request[2], "APPENDONLY");
    to.array(is_known ? 2 : 0);
    if (is_known) {
        to.text(request[2]);
        to.text(is_save ? "" : "no");
    }
}

void commands::quit(const words &, replies &to)
{
    to.status("OK");
    goes_on_ = false;
}

// A page in a browser on this machine may have sent it, with commands behind it.
void commands::foreign(const words &, replies &to)
{
    to.error("ERR this is no web server");
    goes_on_ = false;
}

} // namespace cache
