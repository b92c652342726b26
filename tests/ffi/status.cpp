// lislink.hpp and lislink_station.hpp without exceptions: each call that may fail answers its status. It ends with 0 if
// all is as it should be.
#include <lislink_station.hpp>

#include <string>

static int step;

static bool is(bool good) {
    step++;
    return good;
}

static bool of_sender() {
    lislink::sender sender(std::nothrow);
    std::string_view enq;
    lislink::connection line{};
    return is(static_cast<bool>(sender)) && is(sender.try_add("a\nb") == LIS_STATUS_FORBIDDEN && sender.fault().place == 1)
        && is(sender.try_start(enq) == LIS_STATUS_OLD_LINE) && is((line = sender.connected(), true))
        && is(sender.try_start(enq) == LIS_STATUS_NO_TEXT && enq.empty() && sender.fault().place == 0)
        && is(sender.try_add("") == LIS_STATUS_OK && sender.fault().place == 0)
        && is(sender.try_start(enq) == LIS_STATUS_OK && enq == "\x05")
        && is(sender.patience() == std::chrono::seconds(15)) && is(sender.reply(line, 21).empty())
        && is(sender.patience() == std::chrono::seconds(10)) && is(sender.timer() == "\x05")
        && is(sender.reply(line, 6).size() == 7);
}

static const std::string first("\x02" "1a\x03" "95\r\n");

// What a station sends in answer to bytes.
static std::string sent(lislink::station &station, std::string_view bytes) {
    std::string all;
    while (!bytes.empty()) {
        auto answer = station.next_answer(bytes);
        all += answer.send();
        answer.sent();
    }
    return all;
}

static bool of_station() {
    lislink::station station(std::nothrow);
    std::string_view enq, bytes = first;
    static const std::uint8_t letter = 'a';
    const lis_text lent = {&letter, 1};
    if (!is(station && station.try_begin(LIS_ROLE_ANALYZER, 241) == LIS_STATUS_BAD_NUMBER)
        || !is(station.try_begin(LIS_ROLE_ANALYZER, LIS_LIMIT_LONG_FRAME_TEXT) == LIS_STATUS_OK)
        || !is(station.try_add("a") == LIS_STATUS_OK && station.try_start(enq) == LIS_STATUS_OLD_LINE))
        return false;
    bool needs = station.needs_new_line();
    station.connected();
    if (!is(needs && !station.needs_new_line())
        || !is(sent(station, "\x05") == "\x06" && station.try_start(enq) == LIS_STATUS_LINE_OPEN && enq.empty()))
        return false;
    { auto dropped = station.next_answer(bytes); }    // its text is not kept, and no reply goes out
    if (!is(!station.is_open() && bytes.empty()) || !is(station.try_start(enq) == LIS_STATUS_OK && enq == "\x05")
        || !is(sent(station, "\x05").empty() && station.patience() == std::chrono::seconds(1))
        || !is(station.turn() == std::chrono::seconds(15) && !station.turn_asked() && station.needs_new_line()))
        return false;
    bool asks = station.timer().send() == "\x05";    // that isn't sent: the session is given up
    return is(asks && station.outcome() == LIS_OUTCOME_RESTARTED && station.try_start(enq) == LIS_STATUS_OLD_LINE)
        && is((station.connected(), station.try_add("a")) == LIS_STATUS_OK)
        && is(station.try_start(enq) == LIS_STATUS_OK && sent(station, "\x06\x06") == first + "\x04")
        && is(station.outcome() == LIS_OUTCOME_DONE && station.acknowledged() == 1 && !station.patience())
        && is(station.try_start_lent(nullptr, 0, enq) == LIS_STATUS_NO_TEXT && enq.empty())
        && is(station.try_start_lent(&lent, 1, enq) == LIS_STATUS_OK && enq == "\x05")
        && is(sent(station, "\x06\x06") == first + "\x04" && !station.needs_new_line());
}

static bool of_records() {
    lislink::writer writer(std::nothrow);
    lislink::reader reader(std::nothrow);
    int count = 0;
    if (!is(writer.try_record('H') == LIS_STATUS_OK && writer.try_put() == LIS_STATUS_OK))
        return false;
    if (!is(writer.try_record('P') == LIS_STATUS_OK && writer.try_repeat("a") == LIS_STATUS_OK))
        return false;
    if (!is(writer.try_put() == LIS_STATUS_UNFINISHED && writer.try_component("b") == LIS_STATUS_OK))
        return false;
    if (!is(writer.try_field("\\") == LIS_STATUS_OK && writer.try_put() == LIS_STATUS_OK))
        return false;
    if (!is(writer.text(1) == std::optional<std::string>("P|a\\b^&R&\r")))
        return false;
    if (!is(writer.try_record('P') == LIS_STATUS_OK && writer.try_field("a\x02") == LIS_STATUS_OK))
        return false;
    if (!is(writer.try_put() == LIS_STATUS_FORBIDDEN && writer.field_at_fault() == 2))
        return false;
    const std::string stream = writer.text(0).value_or("") + "R|1\r";
    for (const auto &record : reader.try_feed(stream))
        count += record.letter() == 'H' && record.fields() == 0;
    return is(count == 1 && reader.refused() && reader.refused()->reason == LIS_REASON_NO_PARENT)
        && is(reader.try_finish() == LIS_STATUS_UNFINISHED);
}

static bool of_receiver() {
    lislink::receiver receiver(std::nothrow);
    std::string replies;
    int notes = 0;
    auto send = [&](std::uint8_t byte) { replies += static_cast<char>(byte); };
    auto each = [&](const lis_step &heard) { notes += heard.note == LIS_NOTE_OPENED || heard.note == LIS_NOTE_ENDED; };
    receiver.set_ready(LIS_READY_BUSY);
    if (!is(receiver.hear("\x05", [](std::string_view) { return false; }, send, each) && replies == "\x15"))
        return false;
    receiver.set_ready(LIS_READY_YES);
    if (!is(receiver.hear("\x05\x04", [](std::string_view) { return false; }, send, each) && notes == 2))
        return false;
    // A reply that would be late is not sent.
    auto now = std::chrono::steady_clock::now();
    auto none = [](std::string_view) { return false; };
    replies.clear();
    if (!is(receiver.hear_since(now, "\x05", none, send) && replies == "\x06"))
        return false;
    if (!is(!receiver.hear_since(now - std::chrono::seconds(11), "\x05", none, send) && replies == "\x06"))
        return false;
    // A reply that can't be sent ends the session.
    return is(!receiver.hear("\x05", [](std::string_view) {}, [](std::uint8_t) { return false; }))
        && is(!receiver.is_open()) && is(receiver.try_reserve(1048577) == LIS_STATUS_TOO_LONG)
        && is(receiver.try_set_text_limit(1048577) == LIS_STATUS_TOO_LONG)
        && is(receiver.try_set_text_limit(0) == LIS_STATUS_OK);
}

int main() { return of_sender() && of_station() && of_records() && of_receiver() ? 0 : step; }
