// Sends the records of a file to a host in one session: quick_send HOST:PORT FILE. Its status is 0 if the host
// acknowledged each of them. The connection is new, so no late reply can come over it; another try makes another one.
#include <lislink.hpp>

#include "port.hpp"

#include <chrono>
#include <cstdio>
#include <fstream>
#include <poll.h>

using clock_type = line_clock;

// How often ENQ is sent to a computer that is busy.
static constexpr int most_tries = 3;

// Waits for a byte: 1 if one came, 0 if none did in time, -1 if the line is closed.
static int byte_until(int line, clock_type::time_point due, std::uint8_t &byte) {
    auto left = std::chrono::ceil<std::chrono::milliseconds>(due - clock_type::now()).count();
    pollfd ready = {line, POLLIN, 0};
    if (left <= 0 || poll(&ready, 1, static_cast<int>(left)) == 0)
        return 0;
    return read(line, &byte, 1) == 1 ? 1 : -1;
}

// Sends what is due, and hears the replies, until the session is over, given up, or the line is closed.
static void run(int line, lislink::sender &sender) {
    lislink::connection connection = sender.connected();
    std::string out{sender.start()};
    for (int tries = 1; put(line, out);) {
        auto patience = sender.patience();
        if (!patience)
            return;    // the session is over
        auto due = clock_type::now() + *patience;
        lis_phase phase = sender.phase();
        do {
            std::uint8_t byte;
            int came = byte_until(line, due, byte);
            if (came < 0 || (came == 0 && phase == LIS_PHASE_BUSY && ++tries > most_tries))
                return sender.restart();
            out = came > 0 ? sender.reply(connection, byte) : sender.timer();
        } while (out.empty() && sender.phase() == phase);    // the byte meant nothing
    }
    sender.restart();
}

int main(int count, char **words) {
    if (count != 3)
        return std::fputs("usage: quick_send HOST:PORT FILE\n", stderr), 2;
    std::ifstream file(words[2], std::ios::binary);
    int line = file ? connect_to(words[1]) : -1;
    if (line < 0)
        return std::perror("quick_send"), 1;
    lislink::sender sender;
    try {
        for (std::string record; std::getline(file, record, '\r');)
            sender.add(record + '\r');
        run(line, sender);
    } catch (const lislink::error &fault) {    // no session started
        return std::fprintf(stderr, "quick_send: %s\n", fault.what()), 1;
    }
    std::printf("%s, frames: %d\n", lis_outcome_text(sender.outcome()), static_cast<int>(sender.acknowledged()));
    return sender.outcome() == LIS_OUTCOME_DONE ? 0 : 1;
}
