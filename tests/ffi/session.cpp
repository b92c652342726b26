// The scripted session over lislink.hpp: a message is written, sent, heard, kept and read back, with each call that
// is rejected on the way. Prints what tests/ffi/session.txt has.
#include <lislink.hpp>

#include <cstdio>
#include <cstdlib>
#include <new>
#include <string>
#include <vector>

using namespace std::string_view_literals;

static bool is_refusing = false;    // whether there is no memory

void *operator new(std::size_t size) {
    if (void *at = is_refusing ? nullptr : std::malloc(size))
        return at;
    throw std::bad_alloc();
}
void operator delete(void *at) noexcept { std::free(at); }
void operator delete(void *at, std::size_t) noexcept { std::free(at); }

static void same(bool good, const char *what) {
    if (!good) {
        std::fprintf(stderr, "%s\n", what);
        std::exit(1);
    }
}
#define SAME(good) same(good, #good)

// The records of the message.
static std::vector<std::string> texts_of(lislink::writer &writer) {
    SAME(writer.try_record('x') == LIS_STATUS_BAD_LETTER);
    SAME(writer.try_put() == LIS_STATUS_NO_RECORD);
    writer.record('H').field("").field("").field("Ana|yzer").put();
    writer.record('P').field("1").put();
    try {
        writer.record('R').field("1").put();
        SAME(!"a result without an order is refused");
    } catch (const lislink::error &refused) {
        std::printf("refused: %s\n", refused.what());
        SAME(refused.status() == LIS_STATUS_PUT_NO_PARENT);
    }
    writer.record('O').field("1").field("S7").put();
    writer.record('R').field("1");
    writer.component("").component("").component("").field("GLU").field("5.4").field("mmol/L").put();
    try {
        writer.record('R').field("1").field("a\nb").put();
        SAME(!"LF is refused");
    } catch (const lislink::error &refused) {
        std::printf("refused: %s\n", refused.what());
        SAME(refused.index() == 3);
    }
    writer.record('L').field("1").field("N").put();
    std::vector<std::string> texts;
    for (std::size_t place = 0; place < writer.size(); place++)
        texts.push_back(writer.text(place).value());
    SAME(!writer.text(writer.size()));
    return texts;
}

// Carries a session between a sender and a receiver; what can't be kept ends it.
template <class Keep> static void carry(lislink::sender &sender, lislink::receiver &receiver, Keep keep) {
    lislink::connection line = sender.connected();
    std::string out{sender.start()}, replies;
    for (int turn = 0; turn < 100 && sender.phase() != LIS_PHASE_NEUTRAL; turn++) {
        replies.clear();
        receiver.hear(out, keep, [&](std::uint8_t byte) { replies.push_back(static_cast<char>(byte)); });
        out.clear();
        if (replies.empty())
            out = sender.timer();
        for (char byte : replies)
            out += sender.reply(line, static_cast<std::uint8_t>(byte));
    }
    std::printf("outcome: %s, %zu acknowledged\n", lis_outcome_text(sender.outcome()),
                static_cast<std::size_t>(sender.acknowledged()));
}

static void add(lislink::sender &sender, const std::vector<std::string> &texts) {
    for (const std::string &text : texts)
        sender.add(text);
}

// What is not kept is not acknowledged; and no session starts on a connection where one failed.
static void fail_to_keep(lislink::sender &sender, lislink::receiver &receiver, const std::vector<std::string> &texts) {
    std::size_t kept = 0;
    add(sender, texts);
    carry(sender, receiver, [&](std::string_view) { return kept++ < 2; });
    SAME(sender.acknowledged() == 2 && !receiver.is_open());
    std::string_view enq;
    add(sender, texts);
    SAME(sender.try_start(enq) == LIS_STATUS_OLD_LINE && enq.empty());
    sender.clear();
}

// A text is rejected as it is added, and the error names the byte that no text may hold; those before it stay.
static void throw_in_add(lislink::sender &sender) {
    sender.connected();
    try {
        add(sender, {"H|\\^&\r", "P|1\nx\r"});
        SAME(!"LF is refused");
    } catch (const lislink::error &refused) {
        SAME(refused.status() == LIS_STATUS_FORBIDDEN && refused.index() == 0 && refused.place() == 3);
        SAME(refused.what() == std::string("the text has a byte that no text may hold, byte 3 from 0"));
    }
    SAME(sender.start() == "\x05");
    sender.connected();
    sender.clear();
}

// A text of a writer has the room that it needs, not that of the longest record.
static void keep_little_room(lislink::writer &writer) {
    for (std::size_t place = 0; place < writer.size(); place++)
        SAME(writer.text(place).value().capacity() < 256);
}

// A reply that is sent later; and one that isn't said to be sent, so that the receiver restarts.
static void answer_later(lislink::receiver &receiver) {
    const std::string stream = "\x05\x02" "1H|\\^&\r\x03" "E5\r\n\x04";
    std::string_view bytes = stream;
    std::string replies, kept;
    while (!bytes.empty()) {
        auto answer = receiver.next_step(bytes);
        kept += answer.text().value_or(std::string_view());
        replies += answer.reply() ? std::string(1, static_cast<char>(*answer.reply())) : "-";
        answer.sent();
    }
    SAME(kept == "H|\\^&\r" && replies == "\x06\x06-" && !receiver.is_open());
    bytes = stream;
    receiver.next_step(bytes).sent();
    SAME(receiver.is_open());
    {
        auto answer = receiver.next_step(bytes), moved = std::move(answer);
        SAME(moved.step().note == LIS_NOTE_ACCEPTED && moved.text() && receiver.is_open());
    }
    SAME(!receiver.is_open());
    bytes = "no signal";
    SAME(!receiver.next_step(bytes).reply() && bytes.empty());
}

// While there is no memory for a text, no reply is due: the receiver restarts, and hears the session again.
static void answer_without_memory() {
    lislink::receiver receiver;
    const std::string stream = "\x05\x02" "1R|1|^^^GLU|5.4|mmol/L\r\x03" "7D\r\n\x04";
    for (bool refuses : {true, false}) {
        std::string_view bytes = stream;
        receiver.next_step(bytes).sent();
        SAME(receiver.is_open());
        is_refusing = refuses;
        auto answer = receiver.next_step(bytes);
        is_refusing = false;
        SAME(!answer.text() == refuses && !answer.reply() == refuses && receiver.is_open() == !refuses);
        SAME(answer.step().note == (refuses ? LIS_NOTE_OUT_OF_MEMORY : LIS_NOTE_ACCEPTED) && bytes == "\x04");
        answer.sent();
        receiver.next_step(bytes).sent();
        SAME(!receiver.is_open());
    }
}

static void throw_in_keep(lislink::receiver &receiver) {
    std::string replies;
    auto send = [&](std::uint8_t byte) { replies.push_back(static_cast<char>(byte)); };
    try {
        receiver.hear("\x05\x02" "1H|\\^&\r\x03" "E5\r\n"sv, [](std::string_view) -> bool { throw 7; }, send);
        SAME(!"what keep throws goes on");
    } catch (int thrown) {
        SAME(thrown == 7 && replies == "\x06" && !receiver.is_open());
    }
}

static void read_back(const std::string &stream) {
    lislink::reader reader;
    for (std::size_t at = 0; at < stream.size(); at += 7)
        for (const auto &record : reader.feed(std::string_view(stream).substr(at, 7))) {
            std::printf("%c %zu", record.letter(), record.fields());
            if (record.letter() == 'H')
                std::printf(" %s", record.part(5).value().c_str());
            if (record.letter() == 'R')
                std::printf(" %s %s", record.part(3, 0, 3).value_or("?").c_str(), record.part(4).value_or("?").c_str());
            SAME(!record.part(30) && !record.part(2, 1));
            std::string again(1, record.letter());
            for (const lis_part &part : record)
                again += (part.component > 0 ? "^" : "|") + record.plain(part);
            SAME(record.letter() == 'H' ? record.part(5) == "Ana|yzer" && record.text().substr(0, 8) == "H|\\^&|||"
                                        : record.text() == again);
            std::printf("\n");
        }
    reader.finish();
    try {
        for (const auto &record : reader.feed("R|1\r"))
            SAME(record.letter() == 0);
        SAME(!"a result outside a message is refused");
    } catch (const lislink::message_error &refused) {
        std::printf("refused: %s\n", refused.what());
        SAME(refused.number() == 1);
    }
    for (const auto &record : reader.try_feed("H|\\^&\r"))
        SAME(record.letter() == 0);
    SAME(reader.refused() && reader.refused()->reason == LIS_REASON_NOT_HEADER);
}

static void of_frames() {
    std::string bytes = lislink::frame(1, true, "H|\\^&\r");
    lislink::scanner scanner;
    int good = 0, bad = 0;
    scanner.feed("\x05" + bytes + "\x02" "1\n\x04", [&](const lislink::signal &signal) {
        good += signal.kind() == LIS_SIGNAL_FRAME && signal.text() == "H|\\^&\r" && signal.is_last();
        bad += signal.kind() == LIS_SIGNAL_BAD_FRAME && signal.fault() == LIS_FAULT_SHAPE;
    });
    SAME(good == 1 && bad == 1);
    std::string out;
    std::size_t place = 0;
    SAME(lislink::try_frame(1, true, "a\x02", out, place) == LIS_STATUS_FORBIDDEN && place == 1 && out.empty());
    SAME(lislink::try_frame(1, true, {}, out, place) == LIS_STATUS_OK && out.size() == 7);
}

// Frames of over 240 bytes of text, with the limit that takes them and with the usual one.
static void of_long_frames() {
    const std::string text(5000, 'a'), bytes = lislink::long_frame(1, true, text);
    SAME(bytes.size() == 5007 && lislink::long_frame(1, true, "H|\\^&\r") == lislink::frame(1, true, "H|\\^&\r"));
    lislink::scanner scanner;
    lislink::receiver receiver;
    int good = 0, bad = 0;
    auto each = [&](const lislink::signal &signal) {
        good += signal.kind() == LIS_SIGNAL_FRAME && signal.text() == text;
        bad += signal.kind() == LIS_SIGNAL_BAD_FRAME && signal.fault() == LIS_FAULT_TOO_LONG;
    };
    auto keep = [&](std::string_view kept) { good += kept == text; };
    auto send = [&](std::uint8_t byte) { bad += byte == 21; };
    scanner.feed(bytes, each);
    SAME(receiver.hear("\x05" + bytes, keep, send) && good == 0 && bad == 2);
    scanner.set_frame_limit(LIS_LIMIT_LONG_FRAME_TEXT);
    receiver.set_frame_limit(LIS_LIMIT_LONG_FRAME_TEXT);
    scanner.feed(bytes, each);
    SAME(receiver.hear("\x05" + bytes, keep, send) && good == 2 && bad == 2);
    SAME(scanner.try_set_frame_limit(241) == LIS_STATUS_BAD_NUMBER);
    SAME(receiver.try_set_frame_limit(0) == LIS_STATUS_BAD_NUMBER);
    lislink::sender sender;
    SAME(sender.try_set_frame_limit(241) == LIS_STATUS_BAD_NUMBER);
    sender.set_frame_limit(LIS_LIMIT_LONG_FRAME_TEXT);
    lislink::connection old = sender.connected(), line = sender.connected();
    sender.add(text);
    SAME(sender.start() == "\x05" && sender.reply(line, 21).empty() && sender.phase() == LIS_PHASE_BUSY);
    SAME(sender.timer() == "\x05" && sender.reply(line, 6) == bytes && sender.reply(old, 6).empty());
    SAME(sender.reply(line, 21) == bytes && sender.reply(line, 6) == "\x04" && sender.outcome() == LIS_OUTCOME_DONE);
    SAME(sender.reply(line, 6).empty());
    std::string out;
    std::size_t place = 0;
    SAME(lislink::try_long_frame(1, true, std::string(63994, 'a'), out, place) == LIS_STATUS_TOO_LONG && out.empty());
}

// A message as places in its text.
static void place_message() {
    const std::string text = "H|\\^&\rP|1\rO|1|S7\rR|1|^^^GLU|5&F&\rC|1\rR|2\rL|1\rH|";
    std::string_view rest = text;
    lislink::message message;
    SAME(message.read(rest) && rest == "H|" && message.size() == 7 && message.text() == text.substr(0, text.size() - 2));
    std::string letters, results;
    for (std::size_t i = 0; i < message.size(); i++)
        letters += message.letter(i) + std::to_string(message.parent(i));
    SAME(letters == "H0P0O1R2C3R2L0");
    message.results([&](std::size_t patient, std::size_t order, std::size_t result) {
        results += std::to_string(patient) + std::to_string(order) + std::to_string(result) + ' ';
    });
    SAME(results == "123 125 ");
    SAME(message.text(1) == "P|1" && message.part(3, 3, 0, 3) == "GLU" && message.part(3, 4) == "5|");
    SAME(!message.part(3, 9) && !message.part(0, 3) && message.delimiters().field == '|');
    SAME(!message.try_read(rest) && rest == "H|" && message.refused()->number == 1 && message.size() == 0);
    try {
        (void)message.read(rest);
        SAME(!"a message that isn't ended is refused");
    } catch (const lislink::message_error &refused) {
        SAME(refused.reason() == LIS_REASON_UNFINISHED);
    }
    std::string_view none;
    SAME(!message.read(none) && !message.refused());
    std::string many = "H|\\^&\r";
    for (int i = 0; i < 100; i++)
        many += "P|1\r";
    many += "L|1\r";
    rest = many;
    SAME(message.read(rest) && message.size() == 102 && rest.empty());
}

// The letters of the records in pieces of a size, and a ! at each that can't be read, after which the reader goes on.
static std::string letters_of(const std::string &stream, std::size_t size) {
    lislink::reader reader;
    std::string letters;
    for (std::size_t at = 0; at < stream.size(); at += size) {
        std::string_view rest = std::string_view(stream).substr(at, size);
        for (bool goes_on = true; goes_on;) {
            for (auto &record : reader.try_feed(rest))
                letters += record.letter();
            goes_on = reader.refused().has_value();
            if (goes_on) {
                SAME(reader.read() == (letters == "HPLHPO" ? 28u : letters == "HPLHPO!HPLH" ? 48u : reader.read()));
                letters += '!';
                rest = reader.resume();
            }
        }
    }
    SAME(reader.read() == stream.size() && reader.try_finish() == LIS_STATUS_OK);
    return letters;
}

// After a message that broke off, or has a record that can't be read, the others are read.
static void go_on() {
    const std::string stream = "H|\\^&\rP|1\rL|1\rH|\\^&\rP|2\rO|1\rH|\\^&\rP|3\rL|1\rH|\\^&\rX|1\rL|1\rH|\\^&\rL|4\r";
    for (std::size_t size = 1; size <= stream.size(); size++)
        SAME(letters_of(stream, size) == "HPLHPO!HPLH!HL");
    std::string_view rest = stream;
    lislink::message message;
    int read = 0, refused = 0;
    while (!rest.empty())
        if (message.try_read(rest))
            read++;
        else if (refused++; message.refused())
            lislink::message::skip(rest);
    SAME(read == 3 && refused == 2);
}

int main() {
    of_frames();
    of_long_frames();
    lislink::writer writer;
    std::vector<std::string> texts = texts_of(writer);
    lislink::sender first, sender = std::move(first);
    lislink::receiver other, receiver = std::move(other);
    keep_little_room(writer);
    throw_in_add(sender);
    fail_to_keep(sender, receiver, texts);
    throw_in_keep(receiver);
    answer_without_memory();
    answer_later(receiver);
    std::string store;
    add(sender, texts);
    carry(sender, receiver, [&](std::string_view text) { store += text; });
    SAME(sender.outcome() == LIS_OUTCOME_DONE && !sender.patience());
    read_back(store);
    place_message();
    go_on();
    return 0;
}
