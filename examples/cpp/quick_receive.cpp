// Receives from an analyzer that connects to a TCP port of this machine, stores each text in a file before it is
// acknowledged, and prints the results of a session at its end: quick_receive PORT FILE. Port 0 is one that is free, and
// is printed. It serves one connection: a host accepts again, and restarts the receiver before each connection.
#include <lislink.hpp>

#include "keep.hpp"
#include "port.hpp"

#include <cstdlib>
#include <iostream>

// Prints the patient, the sample, the test and the value of each result, each as one component with its escapes decoded.
// Fields have the standard's numbers; repeats and components count from 0. A message that broke off is dropped.
static void print(std::string_view texts) {
    for (lislink::message message; !texts.empty();)
        if (message.try_read(texts))
            message.results([&](std::size_t patient, std::size_t order, std::size_t result) {
                std::cout << message.part(patient, 4).value_or("") << ' ' << message.part(order, 3).value_or("") << ' '
                          << message.part(result, 3, 0, 3).value_or("") << ' ' << message.part(result, 4).value_or("")
                          << std::endl;
            });
        else
            lislink::message::skip(texts);
}

int main(int count, char **words) {
    if (count != 3)
        return std::fputs("usage: quick_receive PORT FILE\n", stderr), 2;
    text_file store(words[2]);
    int line = store ? accept_one(static_cast<unsigned short>(std::atoi(words[1]))) : -1;
    if (line < 0)
        return std::perror("quick_receive"), 1;
    lislink::receiver receiver;
    receiver.set_careful(true);    // a damaged byte acknowledges nothing
    std::string session;           // the texts of the session
    auto empty = line_clock::now(), meant = empty;    // when the line was last seen empty; when bytes meant something
    auto keep = [&](std::string_view text) { return store.keep(text) && (session += with_cr(text), true); };
    auto send = [&](std::uint8_t reply) { return put(line, {reinterpret_cast<const char *>(&reply), 1}); };
    auto each = [&](const lis_step &) { meant = line_clock::now(); };    // any note but quiet
    char bytes[512];
    ssize_t got = 1;
    while (got > 0) {
        auto before = line_clock::now();
        if (receiver.is_open() && before - meant > std::chrono::seconds(LIS_SECONDS_RECEIVER))
            receiver.timer();    // also while bytes come that mean nothing
        if (!comes(line)) {
            empty = before;
            continue;
        }
        before = line_clock::now();
        got = read(line, bytes, sizeof bytes);
        if (got > 0 && !receiver.hear_since(empty, {bytes, static_cast<std::size_t>(got)}, keep, send, each))
            std::fputs("no reply was sent: the analyzer sends this session again\n", stderr);
        if (got < static_cast<ssize_t>(sizeof bytes))    // a full buffer may have left some
            empty = before;
        if (got <= 0 || !receiver.is_open())             // the session is over
            print(std::exchange(session, {}));
    }
    return got == 0 ? 0 : 1;
}
