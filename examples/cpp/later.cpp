// Receives from an analyzer with callbacks: later PORT FILE; PORT 0 is one that is free, and is printed. Keeping a text
// and sending a reply end later, each by a call of its handler, as with asio. An error between the two drops the answer,
// so the receiver restarts, and no reply goes out.
//
// The event loop here is a queue of handlers over blocking calls. With asio, `line` is its socket with async_read_some,
// a timer that cancels it after a second, and async_write, and `store` posts to a thread pool; `session` stays as it is.
#include <lislink.hpp>

#include "keep.hpp"
#include "port.hpp"

#include <cerrno>
#include <chrono>
#include <cstdio>
#include <cstdlib>
#include <deque>
#include <functional>
#include <optional>
#include <sys/socket.h>
#include <sys/time.h>
#include <unistd.h>

using clock_type = line_clock;
using handler = std::function<void(bool good)>;

// A reply that goes out later could come after the analyzer's timer, which is 15 seconds.
static constexpr auto late = std::chrono::seconds(10);

static std::deque<std::function<void()>> events;

struct store {
    text_file &file;

    void async_keep(std::string_view text, handler done) {
        bool good = file.keep(text);
        events.push_back([done, good] { done(good); });
    }
};

struct line {
    int socket;

    // How many bytes came, 0 at the end; none if nothing came for a second.
    void async_read(char *room, std::size_t size, std::function<void(std::optional<std::size_t>)> done) {
        ssize_t got = read(socket, room, size);
        bool nothing = got < 0 && (errno == EAGAIN || errno == EWOULDBLOCK || errno == EINTR);
        events.push_back([=] { done(nothing ? std::nullopt : std::optional<std::size_t>(got > 0 ? got : 0)); });
    }
    void async_send(std::uint8_t reply, handler done) {
        bool good = put(socket, {reinterpret_cast<const char *>(&reply), 1});
        events.push_back([done, good] { done(good); });
    }
};

class session {
    line &line_;
    store &store_;
    lislink::receiver receiver_;
    std::optional<lislink::receiver::answer_due> answer_;    // of the step that is being answered
    char room_[4096];
    std::string_view bytes_;                                 // what is not heard yet
    bool all_read_ = false;                                  // whether the last read left none
    clock_type::time_point before_ = clock_type::now(), seen_empty_ = before_;    // bytes came after that

    // The step is answered, or what it kept or sent failed; the next step, or the next bytes.
    void answered(bool good) {
        if (good)
            answer_->sent();
        else
            bytes_ = {};    // the analyzer sends this session again
        answer_.reset();
        hear();
    }

    void reply() {
        if (!answer_->reply())
            return answered(true);
        if (clock_type::now() - seen_empty_ > late)
            return answered(false);
        line_.async_send(*answer_->reply(), [this](bool good) { answered(good); });
    }

    void hear() {
        while (!bytes_.empty()) {
            answer_.emplace(receiver_.next_step(bytes_));
            if (answer_->text())
                return store_.async_keep(*answer_->text(), [this](bool good) { good ? reply() : answered(false); });
            if (answer_->reply())
                return reply();
            answer_.reset();
        }
        if (all_read_)
            seen_empty_ = before_;
        listen();
    }

public:
    session(line &its_line, store &its_store) : line_(its_line), store_(its_store) {
        receiver_.set_careful(true);    // a damaged byte acknowledges nothing
    }

    void listen() {
        before_ = clock_type::now();
        line_.async_read(room_, sizeof room_, [this](std::optional<std::size_t> got) {
            if (got == 0u)
                return;
            bytes_ = std::string_view(room_, got.value_or(0));
            all_read_ = bytes_.size() < sizeof room_;
            hear();
        });
    }
};

// The line of the first analyzer that connects; a read of it waits for a second.
static int line_of(unsigned short port) {
    int socket = accept_one(port);
    const timeval pause{1, 0};
    return setsockopt(socket, SOL_SOCKET, SO_RCVTIMEO, &pause, sizeof pause) == 0 ? socket : -1;
}

int main(int count, char **words) {
    if (count != 3)
        return std::fputs("usage: later PORT FILE\n", stderr), 2;
    text_file file(words[2]);
    store kept{file};
    line analyzer{file ? line_of(static_cast<unsigned short>(std::atoi(words[1]))) : -1};
    if (analyzer.socket < 0)
        return std::perror("later"), 1;
    session its(analyzer, kept);
    its.listen();
    for (; !events.empty(); events.pop_front()) {
        auto event = events.front();
        event();
    }
    return 0;
}
