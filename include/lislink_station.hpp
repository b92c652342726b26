// lislink::station of lislink.hpp: both ways of one line (LIS01-A2, 6.2.7 and 6.5), for C++17.
//
// Header only, over the C calls: tested and not proved. What lislink.hpp says of its owners holds for this one too.
#ifndef LISLINK_STATION_HPP
#define LISLINK_STATION_HPP

#include <lislink.hpp>

namespace lislink {

// A side of a line on which both sides send: one owner for both ends. The bytes that a call returns are to be sent;
// there may be none.
class station {
    detail::owner<lis_station, lis_station_size, lis_station_align, lis_station_init, lis_station_end> own_;
    lis_answer answer_{};
    lis_place fault_{};
    std::string text_;
    std::string long_;      // room for a frame, with the long limit
    bool spent_ = true;     // whether a late reply may come

    lis_station *get() noexcept { return own_.get(); }
    const lis_station *get() const noexcept { return own_.get(); }

    // The text that is complete, in `text_`; false if there is no memory for it.
    bool copy_text() {
        std::size_t len = lis_station_text_len(get());
        if (!detail::has_room(text_, len))
            return false;
        text_.resize(len);
        return lis_station_text(get(), detail::at(text_), len) == LIS_STATUS_OK;
    }

    // The status of a start; `out` is ENQ if there is a session.
    lis_status started(lis_status status, std::string_view &out) const noexcept {
        if (status == LIS_STATUS_OK)
            out = detail::view(answer_.send.bytes, answer_.send.len);
        return status;
    }

    // What is to be sent of the last answer.
    std::string_view out() noexcept {
        std::size_t size = 0;
        if (answer_.is_step || answer_.send.len > 0 || long_.empty()
            || lis_station_frame(get(), detail::at(long_), long_.size(), &size) != LIS_STATUS_OK)
            return detail::view(answer_.send.bytes, answer_.send.len);
        return std::string_view(long_).substr(0, size);
    }

public:
    // An answer: keep its text, send its bytes, and call sent(). If sent() isn't called, nothing of it may go out: the
    // line is closed, or, if it was for the sender, its session is given up. Until then the station hears nothing more.
    class [[nodiscard]] answer_due {
        station *its_;
        lis_step step_;
        bool is_step_;
        std::string_view send_, text_;
        friend class station;

        answer_due(station &its, bool is_due) noexcept
            : its_(is_due ? &its : nullptr), step_(its.answer_.step), is_step_(its.answer_.is_step), send_(its.out()),
              text_(its.text_) {}

    public:
        // What is due is due by the new one.
        answer_due(answer_due &&other) noexcept
            : its_(std::exchange(other.its_, nullptr)), step_(other.step_), is_step_(other.is_step_),
              send_(other.send_), text_(other.text_) {}
        answer_due &operator=(answer_due &&) = delete;
        ~answer_due() { drop(); }

        bool is_step() const noexcept { return is_step_; }         // whether it was for the receiver, not the sender
        const lis_step &step() const noexcept { return step_; }    // the receiver's step
        // Whether nothing happened: the timer runs on. After any other answer it starts again.
        bool is_quiet() const noexcept { return is_step_ && step_.note == LIS_NOTE_QUIET; }
        // The text that is complete, to be kept before anything is sent.
        std::optional<std::string_view> text() const noexcept {
            return step_.has_text ? std::optional(text_) : std::nullopt;
        }
        // The bytes that are to be sent.
        std::string_view send() const noexcept { return send_; }
        // Call it when the text was kept and the bytes were sent.
        void sent() noexcept { its_ = nullptr; }
        // Nothing goes out: the line is closed, or the session is given up.
        void drop() noexcept {
            if (station *its = std::exchange(its_, nullptr))
                is_step_ ? its->close_line() : its->give_up();
        }
    };

#if defined(__cpp_exceptions)
    // A station with the usual limit on a frame's text.
    explicit station(lis_role role) { begin(role); }
    // Sets the role and how long the text of a frame may be, and makes the station new, without a text.
    void begin(lis_role role, std::size_t limit = LIS_LIMIT_FRAME_TEXT) { detail::check(try_begin(role, limit)); }
    void add(std::string_view text) {    // as try_add
        lis_status status = try_add(text);
        detail::check(status, 0, fault_.place, at_fault::byte);
    }
    // Asks for the line, as try_start; returns ENQ.
    [[nodiscard]] std::string_view start() {
        std::string_view enq;
        lis_status status = try_start(enq);
        detail::check(status, fault_.index, fault_.place, at_fault::text);
        return enq;
    }
    void reserve(std::uint64_t bytes) { detail::check(try_reserve(bytes)); }    // as try_reserve
#endif
    // A computer's station with the usual limit; throws nothing.
    explicit station(std::nothrow_t) noexcept : own_(std::nothrow) {}
    explicit operator bool() const noexcept { return static_cast<bool>(own_); }    // false if there was no memory

    // As begin. If there is no memory it throws std::bad_alloc, and the station is as it was. With the long limit its
    // calls need a stack of a megabyte.
    [[nodiscard]] lis_status try_begin(lis_role role, std::size_t limit = LIS_LIMIT_FRAME_TEXT) {
        std::string room(limit == LIS_LIMIT_LONG_FRAME_TEXT ? LIS_LIMIT_LONG_FRAME_BYTES : 0, '\0');
        bool session = phase() != LIS_PHASE_NEUTRAL;
        lis_status status = lis_station_begin(get(), role, limit);
        if (status == LIS_STATUS_OK) {
            long_ = std::move(room);
            spent_ = spent_ || session;
        }
        return status;
    }
    // Call it when a new connection was made; on a serial line, when you have waited longer than the other side takes
    // to answer, and dropped what came. The station restarts.
    void connected() noexcept {
        restart();
        spent_ = false;
    }
    // Adds a copy of a text to the next session.
    [[nodiscard]] lis_status try_add(std::string_view text) noexcept {
        lis_status status = lis_station_add_text(get(), detail::at(text), text.size());
        fault_ = detail::fault_of(status, text);
        return status;
    }
    void clear() noexcept { lis_station_clear(get()); }    // drops the texts of the next session
    // Asks for the line: `out` is ENQ. LIS_STATUS_OLD_LINE before `connected`, and, from when a session timed out or
    // was given up, until `connected` is called again; LIS_STATUS_LINE_OPEN while the other side has the line.
    [[nodiscard]] lis_status try_start(std::string_view &out) noexcept {
        out = std::string_view();
        fault_ = lis_place{};
        if (spent_)
            return LIS_STATUS_OLD_LINE;
        return started(lis_station_start(get(), &answer_.send, &fault_), out);
    }
    // As try_start, to send texts that stay with their owner, in their places, until the session is over: it takes no
    // memory. Also LIS_STATUS_FULL if there are more than a session takes. The texts that were added stay.
    [[nodiscard]] lis_status try_start_lent(const lis_text *texts, std::size_t count, std::string_view &out) noexcept {
        out = std::string_view();
        fault_ = lis_place{};
        if (spent_)
            return LIS_STATUS_OLD_LINE;
        return started(lis_station_start_lent(get(), texts, count, &answer_.send, &fault_), out);
    }
    // Which byte of its text the last try_add failed for; or which text, and which byte of it, try_start_lent.
    lis_place fault() const noexcept { return fault_; }
    // Whether a late reply could meet the next ENQ, that of a start or the one after a wait: over a line that answers
    // late, connect it again first.
    bool needs_new_line() const noexcept { return spent_ || phase() != LIS_PHASE_NEUTRAL; }

    // Hears bytes up to the first answer, or all of them if there is none, and takes them from the front of `bytes`. If
    // there is no memory for a text, the line is closed, and the note says so.
    answer_due next_answer(std::string_view &bytes) {
        answer_ = lis_answer{};
        answer_.is_step = true;
        if (!bytes.empty())
            bytes.remove_prefix(lis_station_hear(get(), detail::at(bytes), bytes.size(), &answer_));
        if (answer_.step.has_text && !copy_text()) {
            close_line();
            answer_ = lis_answer{};
            answer_.is_step = true;
            answer_.step.note = LIS_NOTE_OUT_OF_MEMORY;
        }
        return answer_due(*this, answer_.send.len > 0 || answer_.step.has_text || !answer_.is_step);
    }
    // The time of `patience` is over.
    answer_due timer() {
        bool session = phase() != LIS_PHASE_NEUTRAL;
        lis_station_timer(get(), &answer_);
        spent_ = spent_ || (session && outcome() == LIS_OUTCOME_TIMED_OUT);
        return answer_due(*this, answer_.send.len > 0);
    }
    // How long the timer runs before it is over; none if no timer runs.
    std::optional<std::chrono::seconds> patience() const noexcept {
        std::uint32_t seconds = 0;
        return lis_station_timer_seconds(get(), &seconds) ? std::optional(std::chrono::seconds(seconds)) : std::nullopt;
    }
    // How long the line should be left to the other side, which waits for its turn; none if it doesn't wait.
    std::optional<std::chrono::seconds> turn() const noexcept {
        std::uint32_t seconds = lis_station_turn_seconds(get());
        return seconds > 0 ? std::optional(std::chrono::seconds(seconds)) : std::nullopt;
    }
    // Whether the other side asked for its turn, and hasn't had the line since.
    bool turn_asked() const noexcept { return lis_station_turn_asked(get()); }
    // While the other side has the line: asks it to let this side send.
    void ask_turn() noexcept { lis_station_ask_turn(get()); }

    // Gives up its own session.
    void give_up() noexcept {
        spent_ = spent_ || phase() != LIS_PHASE_NEUTRAL;
        lis_station_give_up(get());
    }
    void close_line() noexcept { lis_station_close_line(get()); }    // drops the other side's session
    // Does both, as when the connection is lost.
    void restart() noexcept {
        give_up();
        lis_station_restart(get());
    }
    // Says whether the other side gets the line from now on: its ENQ is answered ACK, or NAK.
    void set_ready(bool ready) noexcept { lis_station_set_ready(get(), ready); }
    // Says whether it hears carefully from now on what is for its receiver, as receiver::set_careful.
    void set_careful(bool careful) noexcept { lis_station_set_careful(get(), careful); }
    std::uint64_t noise() const noexcept { return lis_station_noise(get()); }    // as receiver::noise
    // As receiver::try_reserve.
    [[nodiscard]] lis_status try_reserve(std::uint64_t bytes) noexcept {
        lis_status status = lis_station_reserve(get(), bytes);
        auto most = std::min<std::uint64_t>(held() + bytes, LIS_LIMIT_TEXT_BYTES);
        return status == LIS_STATUS_OK && !detail::has_room(text_, most) ? LIS_STATUS_OUT_OF_MEMORY : status;
    }

    bool awaits_reply() const noexcept { return lis_station_awaits_reply(get()); }    // the next byte is a reply
    lis_phase phase() const noexcept { return lis_station_phase(get()); }             // what its sender waits for
    lis_outcome outcome() const noexcept { return lis_station_outcome(get()); }       // how its last session ended
    // How many frames of its own session are acknowledged.
    std::uint64_t acknowledged() const noexcept { return lis_station_acknowledged(get()); }
    bool is_open() const noexcept { return lis_station_is_open(get()); }    // whether the other side has the line
    // How many frames were accepted since the other side got the line.
    std::uint64_t accepted() const noexcept { return lis_station_accepted(get()); }
    std::uint64_t held() const noexcept { return lis_station_held(get()); }    // bytes of a text that isn't complete
};

} // namespace lislink

#endif
