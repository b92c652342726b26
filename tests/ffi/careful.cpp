// One damaged byte of a frame at a receiver and at a station in C++, as careful.c: prints how many of 10,200 changes
// are acknowledged and not taken, as the profile has it and heard carefully.
#include "lislink.hpp"
#include "lislink_station.hpp"
#include <cstdio>
#include <string>

static const std::string TEXT = "R|1|^^^GLU|5.4|mmol/L||N||F||||E\r";

static std::string frame() {
    std::string inner = "1" + TEXT + "\x03";
    unsigned sum = 0;
    for (unsigned char byte : inner)
        sum += byte;
    char digits[3];
    std::snprintf(digits, sizeof digits, "%02X", sum % 256);
    return "\x02" + inner + digits + "\r\n";
}

// Whether ACK is a reply, and the text isn't the frame's.
static bool is_lost(lislink::receiver &it, std::string_view bytes) {
    bool is_acknowledged = false, is_kept = false;
    it.restart();
    it.hear("\x05", [](std::string_view) { return true; }, [](std::uint8_t) { return true; });
    it.hear(bytes, [&](std::string_view text) { return is_kept = text == TEXT, true; },
            [&](std::uint8_t reply) { return is_acknowledged |= reply == 6, true; });
    return is_acknowledged && !is_kept;
}

static bool is_lost(lislink::station &it, std::string_view bytes) {
    bool is_acknowledged = false, is_kept = false;
    it.restart();
    for (std::string_view left : {std::string_view("\x05"), bytes})
        for (bool is_first = left.size() == 1; !left.empty();) {
            auto answer = it.next_answer(left);
            if (answer.text())
                is_kept = *answer.text() == TEXT;
            is_acknowledged |= !is_first && answer.send() == "\x06";
            answer.sent();
        }
    return is_acknowledged && !is_kept;
}

template <class End> static int lost(End &it) {
    std::string bytes = frame();
    int count = 0;
    for (char &byte : bytes) {
        char was = byte;
        for (int other = 0; other < 256; other++)
            if (byte = static_cast<char>(other); byte != was)
                count += is_lost(it, bytes);
        byte = was;
    }
    return count;
}

template <class End> static void tell(End &it) {
    int before = lost(it);
    it.set_careful(true);
    int after = lost(it);
    std::printf("%d %d %d\n", before, after, it.noise() > 40);
}

int main() {
    lislink::receiver receiver;
    lislink::station station(LIS_ROLE_COMPUTER);
    tell(receiver);
    tell(station);
}
