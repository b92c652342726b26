// A computer that answers queries on a TCP port: appends each text to a file before it is acknowledged, and sends the
// orders for the samples that an analyzer asked for (Q), in a session of its own. answer_query PORT FILE; PORT 0 is
// one that is free, and is printed.
//
// The line is given up, for a new connection, where a session of its own failed, a text can't be kept, or a reply would
// be late.
#include <lislink_station.hpp>

#include "keep.hpp"
#include "port.hpp"

#include <cerrno>
#include <chrono>
#include <cstdio>
#include <cstdlib>
#include <sys/socket.h>
#include <sys/time.h>
#include <unistd.h>

using clock_type = line_clock;
using std::chrono::milliseconds;

// A reply that goes out later could come after the analyzer's timer, which is 15 seconds.
static constexpr auto late = std::chrono::seconds(10);
// How long a read waits: a line that is idle is looked at so often.
static constexpr auto pause_time = milliseconds(1000);

// The samples that the queries of a session are for.
static std::vector<std::string> asked_for(std::string_view texts) {
    std::vector<std::string> samples;
    lislink::reader reader;
    for (auto &record : reader.try_feed(texts))    // up to one that can't be read
        if (record.letter() == 'Q')
            if (auto sample = record.part(3, 0, 1); sample && !sample->empty())
                samples.push_back(*sample);
    return samples;
}

// Puts a message with an order of glucose for each sample to the station's next session.
static void add_orders(lislink::station &station, const std::vector<std::string> &samples) {
    lislink::writer writer;
    writer.record('H').put();
    for (std::size_t number = 0; number < samples.size(); number++) {
        writer.record('P').field(std::to_string(number + 1)).put();
        writer.record('O').field("1").field(samples[number]).field("");
        writer.component("").component("").component("").field("GLU").put();
    }
    writer.record('L').field("1").field("F").put();
    for (std::size_t place = 0; place < writer.size(); place++)
        station.add(*writer.text(place));
}

// The computer's side of one line.
class computer {
    int line_;
    text_file &store_;
    lislink::station station_{LIS_ROLE_COMPUTER};
    std::string texts_;                       // of the analyzer's session
    std::vector<std::string> samples_;        // what it asked for
    bool is_sending_ = false;
    std::optional<clock_type::time_point> due_;
    clock_type::time_point free_at_{};

    bool keep(std::string_view text) {
        texts_ += text;
        return store_.keep(text);
    }

    void run_timer() {
        auto seconds = station_.patience();
        due_ = seconds ? std::optional(clock_type::now() + *seconds) : std::nullopt;
    }

    // Keeps an answer's text, and then sends its bytes; whether both went well, in time.
    bool take(lislink::station::answer_due answer, clock_type::time_point since) {
        if ((answer.text() && !keep(*answer.text())) || clock_type::now() - since > late || !put(line_, answer.send()))
            return false;    // the answer is dropped: nothing of it goes out
        answer.sent();
        if (answer.is_step() && answer.step().note == LIS_NOTE_OPENED)
            texts_.clear();    // a session that failed comes again, whole
        if (answer.is_step() && answer.step().note == LIS_NOTE_ENDED)
            for (auto &sample : asked_for(texts_))
                samples_.push_back(sample);
        if (!answer.is_quiet())
            run_timer();
        return true;
    }

    // Looks how a session of its own ended; whether the line can be used on.
    bool settle() {
        if (!is_sending_ || station_.phase() != LIS_PHASE_NEUTRAL)
            return true;
        is_sending_ = false;
        free_at_ = clock_type::now() + station_.turn().value_or(std::chrono::seconds(0));
        return station_.outcome() == LIS_OUTCOME_DONE;
    }

    // Sends the orders, if there are any, the line is free, and the analyzer doesn't wait for its turn; whether the
    // line took ENQ.
    bool start() {
        bool its_turn = station_.turn() && clock_type::now() < free_at_;
        if (samples_.empty() || is_sending_ || station_.is_open() || its_turn)
            return true;
        add_orders(station_, samples_);
        samples_.clear();
        is_sending_ = true;
        bool sent = put(line_, station_.start());
        run_timer();
        return sent;
    }

    // What came: 0 at the end, less if nothing came for a while.
    ssize_t receive(char *room, std::size_t size) {
        auto left = due_ ? std::chrono::duration_cast<milliseconds>(*due_ - clock_type::now()) : pause_time;
        auto wait = std::clamp(left, milliseconds(1), pause_time);
        const timeval patience{wait.count() / 1000, static_cast<suseconds_t>(wait.count() % 1000 * 1000)};
        setsockopt(line_, SOL_SOCKET, SO_RCVTIMEO, &patience, sizeof patience);
        ssize_t got = recv(line_, room, size, 0);
        return got < 0 && errno != EAGAIN && errno != EWOULDBLOCK && errno != EINTR ? 0 : got;
    }

    bool hear(std::string_view bytes, clock_type::time_point since) {
        bool good = true;
        while (good && !bytes.empty())
            good = take(station_.next_answer(bytes), since);
        return good;
    }

public:
    computer(int line, text_file &store) : line_(line), store_(store) {
        station_.set_careful(true);    // a damaged byte acknowledges nothing
        station_.connected();
    }

    // Hears and sends until the line is closed or given up.
    void run() {
        char room[4096];
        auto seen_empty = clock_type::now();    // bytes came after this
        while (settle() && start()) {
            auto before = clock_type::now();
            ssize_t got = receive(room, sizeof room);
            if (got == 0)
                return;
            if (got > 0 && !hear({room, static_cast<std::size_t>(got)}, seen_empty))
                return;
            if (got < static_cast<ssize_t>(sizeof room))
                seen_empty = before;    // else the read may have left some
            if (due_ && clock_type::now() >= *due_ && !take(station_.timer(), seen_empty))
                return;
        }
    }
};

int main(int count, char **words) {
    if (count != 3)
        return std::fputs("usage: answer_query PORT FILE\n", stderr), 2;
    text_file store(words[2]);
    int line = store ? accept_one(static_cast<unsigned short>(std::atoi(words[1]))) : -1;
    if (line < 0)
        return std::perror("answer_query"), 1;
    computer(line, store).run();
    close(line);
    return 0;
}
