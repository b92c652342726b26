// The calls of lislink.h for C++17: owners that free their blocks, bytes as std::string_view, parts as std::optional.
//
// Header only, over the C calls: tested and not proved. Link with liblislink.
//
// A loop that receives; `store` is yours. It stores each text before the reply goes out:
//
//     lislink::receiver receiver;
//     receiver.set_careful(true);    // one damaged byte acknowledges nothing
//     auto keep = [&](std::string_view text) { return store(text); };
//     auto send = [&](std::uint8_t reply) { return write(line, &reply, 1) == 1; };
//     while ((got = read(line, bytes, sizeof bytes)) > 0)
//         if (!receiver.hear({bytes, static_cast<std::size_t>(got)}, keep, send))
//             std::fputs("no reply was sent: the analyzer sends this session again\n", stderr);
//
// A program also calls timer() when a line is open and no note but quiet came for LIS_SECONDS_RECEIVER. hear_since does
// the same as hear and sends no reply that could be late; docs/first-program.md has the whole program.
//
//   - A call that may fail throws lislink::error, or std::bad_alloc if there is no memory. Next to it, try_X returns
//     the lis_status instead and throws nothing of its own. Without exceptions (-fno-exceptions) only try_X is there.
//   - An owner can be moved, not copied. One that was moved from can be assigned to or destroyed, nothing else.
//   - A std::string_view that a call returns is good until the next call of its owner.
//   - One thread at a time uses an owner. It may be given to another thread.
//   - receiver::hear keeps, then replies. sender::start asks for a connection on which no late reply can come.
//   - lislink_station.hpp has the class `station`, for a line on which both sides send.
#ifndef LISLINK_HPP
#define LISLINK_HPP

#include <lislink.h>

#include <algorithm>
#include <cassert>
#include <chrono>
#include <cstddef>
#include <cstdint>
#include <iterator>
#include <memory>
#include <new>
#include <optional>
#include <stdexcept>
#include <string>
#include <string_view>
#include <tuple>
#include <type_traits>
#include <utility>
#include <vector>

namespace lislink {

#if defined(__cpp_exceptions)
// What an error has the place of.
enum class at_fault { nothing, byte, text, field };

// Why a call failed: the status, and which text, field or byte is at fault (0 if none is). what() is the status in
// words, with the place if the call has one.
class error : public std::runtime_error {
    lis_status status_;
    std::size_t index_, place_;

    static std::string words(lis_status status, std::size_t index, std::size_t place, at_fault at) {
        std::string out = lis_status_text(status);
        if (at == at_fault::field && index > 0)
            out += ", field " + std::to_string(index);
        if (at == at_fault::text && (status == LIS_STATUS_FORBIDDEN || status == LIS_STATUS_TOO_LONG))
            out += ", text " + std::to_string(index) + (status == LIS_STATUS_TOO_LONG ? " from 0" : "");
        if ((at == at_fault::text || at == at_fault::byte) && status == LIS_STATUS_FORBIDDEN)
            out += ", byte " + std::to_string(place) + " from 0";
        return out;
    }

public:
    // The error of a status.
    explicit error(lis_status status, std::size_t index = 0, std::size_t place = 0, at_fault at = at_fault::nothing)
        : std::runtime_error(words(status, index, place, at)), status_(status), index_(index), place_(place) {}
    lis_status status() const noexcept { return status_; }    // what the C call returned
    std::size_t index() const noexcept { return index_; }     // the text of a session, from 0, or the field of a record
    std::size_t place() const noexcept { return place_; }     // the byte of the text that no text may hold, from 0
};

// Why a record of a stream can't be read, as lis_found has it. what() is its number, the reason in words and, of a text
// that is no record, why.
class message_error : public std::runtime_error {
    lis_found found_;

    static std::string words(const lis_found &found) {
        std::string out = "record " + std::to_string(found.number) + ": " + lis_reason_text(found.reason);
        if (found.reason == LIS_REASON_BAD_RECORD)
            out += std::string(": ") + lis_status_text(static_cast<lis_status>(found.detail));
        if (found.reason == LIS_REASON_BAD_RECORD && found.detail == LIS_STATUS_FORBIDDEN)
            out += ", byte " + std::to_string(found.place) + " from 0";
        if (found.reason == LIS_REASON_NO_PARENT)
            out += std::string(", ") + static_cast<char>(found.detail);
        return out;
    }

public:
    // The error of what a reader found.
    explicit message_error(const lis_found &found) : std::runtime_error(words(found)), found_(found) {}
    lis_reason reason() const noexcept { return found_.reason; }        // what is wrong with it
    std::uint64_t number() const noexcept { return found_.number; }     // its number in its message, 1 for a header
    std::size_t place() const noexcept { return found_.place; }         // the byte that no text may hold
    std::uint8_t detail() const noexcept { return found_.detail; }      // as the reason says
};
#endif

namespace detail {

// The contracts of the C calls ask for a pointer that is not null, also with the length 0.
inline const std::uint8_t *at(std::string_view bytes) noexcept {
    static const std::uint8_t none = 0;
    return bytes.empty() ? &none : reinterpret_cast<const std::uint8_t *>(bytes.data());
}

inline std::uint8_t *at(std::string &room) noexcept { return reinterpret_cast<std::uint8_t *>(room.data()); }

inline std::string_view view(const std::uint8_t *bytes, std::size_t len) noexcept {
    return {reinterpret_cast<const char *>(bytes), len};
}

#if defined(__cpp_exceptions)
inline void check(lis_status status, std::size_t index = 0, std::size_t place = 0, at_fault at = at_fault::nothing) {
    if (status == LIS_STATUS_OUT_OF_MEMORY)
        throw std::bad_alloc();
    if (status != LIS_STATUS_OK)
        throw error(status, index, place, at);
}
#endif

// Where the text is at fault that was added with this status.
inline lis_place fault_of(lis_status status, std::string_view text) noexcept {
    lis_place fault{};
    if (status == LIS_STATUS_FORBIDDEN)
        status = lis_text_check(at(text), text.size(), &fault.place);
    return fault;
}

// A block and its handle. It has none if there was no memory, or if it was moved from.
template <class Handle, std::size_t (*Size)(), std::size_t (*Align)(), void (*Init)(void *), void (*End)(Handle)>
class owner {
    Handle handle_;

    void end() noexcept {
        if (handle_.at != nullptr) {
            End(handle_);
            ::operator delete(handle_.at, std::align_val_t(Align()));
        }
        handle_.at = nullptr;
    }

public:
    explicit owner(std::nothrow_t) noexcept
        : handle_{::operator new(Size(), std::align_val_t(Align()), std::nothrow)} {
        if (handle_.at != nullptr)
            Init(handle_.at);
    }
#if defined(__cpp_exceptions)
    owner() : owner(std::nothrow) {
        if (handle_.at == nullptr)
            throw std::bad_alloc();
    }
#endif
    owner(owner &&other) noexcept : handle_(std::exchange(other.handle_, Handle{nullptr})) {}
    owner &operator=(owner &&other) noexcept {
        if (this != &other) {
            end();
            handle_ = std::exchange(other.handle_, Handle{nullptr});
        }
        return *this;
    }
    owner(const owner &) = delete;
    owner &operator=(const owner &) = delete;
    ~owner() { end(); }

    explicit operator bool() const noexcept { return handle_.at != nullptr; }
    Handle *get() noexcept {
        assert(handle_.at != nullptr);
        return &handle_;
    }
    const Handle *get() const noexcept {
        assert(handle_.at != nullptr);
        return &handle_;
    }
};

// Whether a call says that it went well; one that gives nothing back did.
template <class Call, class... Words> bool went(Call &call, Words &&...words) {
    if constexpr (std::is_void_v<std::invoke_result_t<Call &, Words...>>) {
        call(std::forward<Words>(words)...);
        return true;
    } else {
        return static_cast<bool>(call(std::forward<Words>(words)...));
    }
}

// Bytes that would be gone before their records are read: any rvalue that isn't a view or a pointer.
template <class Bytes> inline constexpr bool is_view = std::is_same_v<std::remove_cv_t<Bytes>, std::string_view>
    || std::is_pointer_v<std::remove_cv_t<Bytes>>;
template <class Bytes> using if_dies = std::enable_if_t<
    !std::is_reference_v<Bytes> && !is_view<Bytes> && std::is_convertible_v<Bytes, std::string_view>, int>;

struct nothing {
    void operator()(const lis_step &) const noexcept {}
};

// Makes room for a text in the place of the one before it; false if there is no memory. The room stays, and is no
// larger than it has to be.
inline bool has_room(std::string &text, std::size_t bytes) {
    if (bytes <= text.capacity())
        return true;
    std::string().swap(text);
#if defined(__cpp_exceptions)
    try {
        text.reserve(bytes);
    } catch (const std::bad_alloc &) {
        return false;
    }
#else
    text.reserve(bytes);
#endif
    return true;
}

} // namespace detail

// What a scanner reads: ENQ, EOT, a frame or a bad frame.
class signal {
    lis_signal signal_{};
    std::string long_;    // the text of a frame, if `signal_` has no room for it
    friend class scanner;

public:
    // What it is. A long frame is LIS_SIGNAL_FRAME too: text() has its text.
    lis_signal_kind kind() const noexcept {
        return signal_.kind == LIS_SIGNAL_LONG_FRAME ? LIS_SIGNAL_FRAME : signal_.kind;
    }
    std::uint8_t number() const noexcept { return signal_.number; }    // of a good frame: its number
    bool is_last() const noexcept { return signal_.last; }             // whether it is the last of its message
    lis_fault fault() const noexcept { return signal_.fault; }         // of a bad frame: what is wrong with it
    std::size_t place() const noexcept { return signal_.place; }       // the byte of its text that no text may hold
    // The text of a good frame.
    std::string_view text() const noexcept {
        return signal_.kind == LIS_SIGNAL_LONG_FRAME ? std::string_view(long_)
                                                     : detail::view(signal_.text, signal_.len);
    }
};

// Reads bytes of the link alone, without a receiver's rules.
class scanner {
    detail::owner<lis_scanner, lis_scanner_size, lis_scanner_align, lis_scanner_init, lis_scanner_end> own_;

    void take_text(signal &found) {
        found.long_.resize(lis_scanner_text_len(own_.get()));
        (void)lis_scanner_text(own_.get(), detail::at(found.long_), found.long_.size());
    }

public:
#if defined(__cpp_exceptions)
    scanner() = default;
#endif
    explicit scanner(std::nothrow_t) noexcept : own_(std::nothrow) {}    // throws nothing
    explicit operator bool() const noexcept { return static_cast<bool>(own_); }    // false if there was no memory

    // Sets how long the text of a frame may be, LIS_LIMIT_FRAME_TEXT or LIS_LIMIT_LONG_FRAME_TEXT, and starts again.
    [[nodiscard]] lis_status try_set_frame_limit(std::size_t limit) noexcept {
        return lis_scanner_set_limit(own_.get(), limit);
    }
#if defined(__cpp_exceptions)
    void set_frame_limit(std::size_t limit) { detail::check(try_set_frame_limit(limit)); }    // the same
#endif

    // Calls each(signal) for each signal that the bytes complete.
    template <class Each> void feed(std::string_view bytes, Each &&each) {
        for (signal found; !bytes.empty();) {
            bytes.remove_prefix(lis_scanner_feed(own_.get(), detail::at(bytes), bytes.size(), &found.signal_));
            if (found.signal_.kind == LIS_SIGNAL_LONG_FRAME)
                take_text(found);
            if (found.kind() != LIS_SIGNAL_NONE)
                each(static_cast<const signal &>(found));
        }
    }
};

// Makes the bytes of a frame; `place` is that of a byte that no text may hold.
[[nodiscard]] inline lis_status try_frame(std::uint8_t number, bool last, std::string_view text, std::string &out,
                                          std::size_t &place) {
    lis_bytes bytes;
    lis_status status = lis_frame_write(number, last, detail::at(text), text.size(), &bytes, &place);
    if (status == LIS_STATUS_OK)
        out = detail::view(bytes.bytes, bytes.len);
    return status;
}

// The same for a text of up to LIS_LIMIT_LONG_FRAME_TEXT bytes.
[[nodiscard]] inline lis_status try_long_frame(std::uint8_t number, bool last, std::string_view text,
                                               std::string &out, std::size_t &place) {
    std::string bytes(text.size() + 7, '\0');
    std::size_t size = 0;
    lis_status status = lis_long_frame_write(number, last, detail::at(text), text.size(), detail::at(bytes),
                                             bytes.size(), &size, &place);
    if (status == LIS_STATUS_OK)
        out = std::move(bytes);
    return status;
}

#if defined(__cpp_exceptions)
// The bytes of a frame.
[[nodiscard]] inline std::string frame(std::uint8_t number, bool last, std::string_view text) {
    std::string out;
    std::size_t place = 0;
    lis_status status = try_frame(number, last, text, out, place);
    detail::check(status, 0, place, at_fault::byte);
    return out;
}

// The bytes of a frame whose text has up to LIS_LIMIT_LONG_FRAME_TEXT bytes.
[[nodiscard]] inline std::string long_frame(std::uint8_t number, bool last, std::string_view text) {
    std::string out;
    std::size_t place = 0;
    lis_status status = try_long_frame(number, last, text, out, place);
    detail::check(status, 0, place, at_fault::byte);
    return out;
}
#endif

// A connection of a sender, by its number: bytes of an earlier one are dropped.
enum class connection : std::uint64_t {};

// Sends texts. The bytes that a call returns are to be sent; there may be none.
class sender {
    detail::owner<lis_sender, lis_sender_size, lis_sender_align, lis_sender_init, lis_sender_end> own_;
    lis_line line_{};
    lis_bytes out_{};
    std::string long_;    // room for a frame, with the long limit
    lis_place fault_{};

    lis_sender *get() noexcept {
        assert(own_);
        return &line_.sender;
    }
    const lis_sender *get() const noexcept {
        assert(own_);
        return &line_.sender;
    }
    std::string_view out() const noexcept { return detail::view(out_.bytes, out_.len); }
    void begin() noexcept {
        if (own_)
            lis_line_init(&line_, *own_.get());
    }

public:
#if defined(__cpp_exceptions)
    sender() { begin(); }    // without a connection yet
#endif
    explicit sender(std::nothrow_t) noexcept : own_(std::nothrow) { begin(); }    // throws nothing
    explicit operator bool() const noexcept { return static_cast<bool>(own_); }    // false if there was no memory

    // Call it when a new connection was made; on a serial line, when you have waited longer than the computer takes to
    // answer, and dropped what came. A session that goes on is restarted.
    connection connected() noexcept { return connection{lis_line_connected(&line_)}; }

    // Adds a copy of a text to the next session.
    [[nodiscard]] lis_status try_add(std::string_view text) noexcept {
        lis_status status = lis_sender_add_text(get(), detail::at(text), text.size());
        fault_ = detail::fault_of(status, text);
        return status;
    }
    // Starts a session: `out` is ENQ. LIS_STATUS_OLD_LINE before `connected`, and, from when a session timed out or was
    // restarted, until `connected` is called again. Once a session is over, its texts are gone, however it ended.
    [[nodiscard]] lis_status try_start(std::string_view &out) noexcept {
        lis_status status = lis_line_start(&line_, &out_, &fault_);
        out = status == LIS_STATUS_OK ? this->out() : std::string_view();
        return status;
    }
    // Which byte of its text the last try_add failed for.
    lis_place fault() const noexcept { return fault_; }
#if defined(__cpp_exceptions)
    void add(std::string_view text) {    // as try_add
        lis_status status = try_add(text);
        detail::check(status, 0, fault_.place, at_fault::byte);
    }
    // Starts a session, as try_start; returns ENQ.
    [[nodiscard]] std::string_view start() {
        std::string_view enq;
        lis_status status = try_start(enq);
        detail::check(status, fault_.index, fault_.place, at_fault::text);
        return enq;
    }
#endif
    void clear() noexcept { lis_sender_clear(get()); }    // drops the texts of the next session

    // Sets how long the text of a frame may be, LIS_LIMIT_FRAME_TEXT or LIS_LIMIT_LONG_FRAME_TEXT, while no session
    // goes on, and makes the sender new; the texts of the next session stay. If there is no memory it throws
    // std::bad_alloc, and the sender is as it was. With the long limit its calls need a stack of a megabyte.
    [[nodiscard]] lis_status try_set_frame_limit(std::size_t limit) {
        std::string room(limit == LIS_LIMIT_LONG_FRAME_TEXT ? LIS_LIMIT_LONG_FRAME_BYTES : 0, '\0');
        lis_status status = lis_sender_set_limit(get(), limit);
        if (status == LIS_STATUS_OK)
            long_ = std::move(room);
        return status;
    }
#if defined(__cpp_exceptions)
    void set_frame_limit(std::size_t limit) { detail::check(try_set_frame_limit(limit)); }    // the same
#endif

    // A byte came over a connection: what is to be sent.
    [[nodiscard]] std::string_view reply(connection from, std::uint8_t byte) noexcept {
        std::size_t size = 0;
        auto line = static_cast<std::uint64_t>(from);
        lis_line_reply(&line_, line, byte, &out_);
        if (out_.len > 0 || long_.empty()
            || lis_line_frame(&line_, line, detail::at(long_), long_.size(), &size) != LIS_STATUS_OK)
            return out();
        return std::string_view(long_).substr(0, size);
    }
    // The time of `patience` is over: what is to be sent.
    [[nodiscard]] std::string_view timer() noexcept {
        lis_line_timer(&line_, &out_);
        return out();
    }
    void restart() noexcept { lis_line_restart(&line_); }    // gives up the session that goes on

    lis_phase phase() const noexcept { return lis_sender_phase(get()); }          // what the sender waits for
    lis_outcome outcome() const noexcept { return lis_sender_outcome(get()); }    // how the last session ended
    // How many frames of the session are acknowledged.
    std::uint64_t acknowledged() const noexcept { return lis_sender_acknowledged(get()); }
    // How long the phase lasts before its timer runs out; none if no timer runs.
    std::optional<std::chrono::seconds> patience() const noexcept {
        std::uint32_t seconds = 0;
        return lis_sender_timer_seconds(get(), &seconds) ? std::optional(std::chrono::seconds(seconds)) : std::nullopt;
    }
};

// Receives texts: hear keeps each, and then replies.
class receiver {
    detail::owner<lis_receiver, lis_receiver_size, lis_receiver_align, lis_receiver_init, lis_receiver_end> own_;
    std::string text_;

    lis_receiver *get() noexcept { return own_.get(); }
    const lis_receiver *get() const noexcept { return own_.get(); }

    // The text that is complete, in `text_`; false if there is no memory for it.
    bool copy_text() {
        std::size_t len = lis_receiver_text_len(get());
        if (!detail::has_room(text_, len))
            return false;
        text_.resize(len);
        return lis_receiver_text(get(), detail::at(text_), len) == LIS_STATUS_OK;
    }

    // Restarts the receiver unless all went well; so it does if keep or send throws.
    struct guard {
        receiver &its;
        bool good = false;
        ~guard() {
            if (!good)
                its.restart();
        }
    };

    template <class Keep, class Send> bool answer(const lis_step &step, Keep &keep, Send &send) {
        guard guarded{*this};
        if (step.has_text && !(copy_text() && detail::went(keep, std::string_view(text_))))
            return false;
        return guarded.good = step.reply == 0 || detail::went(send, step.reply);
    }

public:
    // A step that is answered later: keep its text, send its reply, and call sent(). If sent() isn't called, no reply
    // may go out, and the receiver restarts: an error in between acknowledges nothing. Until then the receiver hears
    // nothing more, and stays in its place.
    class [[nodiscard]] answer_due {
        receiver *its_;    // null once nothing is due
        lis_step step_;
        std::string_view text_;
        friend class receiver;
        answer_due(receiver &its, const lis_step &step) noexcept
            : its_(step.reply != 0 || step.has_text ? &its : nullptr), step_(step) {}

    public:
        // What is due is due by the new one.
        answer_due(answer_due &&other) noexcept
            : its_(std::exchange(other.its_, nullptr)), step_(other.step_), text_(other.text_) {}
        answer_due &operator=(answer_due &&) = delete;
        ~answer_due() { drop(); }

        const lis_step &step() const noexcept { return step_; }    // the step
        // The text that is complete, to be kept before the reply is sent.
        std::optional<std::string_view> text() const noexcept {
            return step_.has_text ? std::optional(text_) : std::nullopt;
        }
        // The byte that is to be sent.
        std::optional<std::uint8_t> reply() const noexcept {
            return step_.reply != 0 ? std::optional(step_.reply) : std::nullopt;
        }
        // Call it when the text was kept and the reply was sent.
        void sent() noexcept { its_ = nullptr; }
        // No reply goes out: the receiver restarts.
        void drop() noexcept {
            if (receiver *its = std::exchange(its_, nullptr))
                its->restart();
        }
    };

#if defined(__cpp_exceptions)
    receiver() = default;
#endif
    explicit receiver(std::nothrow_t) noexcept : own_(std::nothrow) {}    // throws nothing
    explicit operator bool() const noexcept { return static_cast<bool>(own_); }    // false if there was no memory

    // Hears bytes. It calls keep(text) with each text that is complete, and send(reply) only if keep returned true, or
    // nothing, and threw nothing. Else no reply is sent, the receiver restarts, the other bytes are dropped, and hear
    // returns false; what keep or send throws is passed on. So the sender still has its texts and sends them again.
    // each(step) is called first, for each step that means something.
    template <class Keep, class Send, class Each = detail::nothing>
    bool hear(std::string_view bytes, Keep &&keep, Send &&send, Each &&each = Each()) {
        for (lis_step step; !bytes.empty();) {
            bytes.remove_prefix(lis_receiver_hear(get(), detail::at(bytes), bytes.size(), &step));
            if (step.note != LIS_NOTE_QUIET)
                each(static_cast<const lis_step &>(step));
            if (!answer(step, keep, send))
                return false;
        }
        return true;
    }

    // Hears bytes up to the first step that means something, or all of them if none does, and takes them from the front
    // of `bytes`. Its reply may be sent later. If there is no memory for a text, the receiver restarts, and the note
    // says so.
    answer_due next_step(std::string_view &bytes) {
        lis_step step{};
        if (!bytes.empty())
            bytes.remove_prefix(lis_receiver_hear(get(), detail::at(bytes), bytes.size(), &step));
        if (step.has_text && !copy_text()) {
            restart();
            step = lis_step{};
            step.note = LIS_NOTE_OUT_OF_MEMORY;
        }
        answer_due made(*this, step);
        made.text_ = text_;
        return made;
    }

    // As hear, for bytes that came after `since`, when the line was last seen empty: a reply that could come after the
    // sender's timer is not sent, which is one that is due more than two thirds of that timer after `since`. The clock
    // is the caller's: that of a suspended machine should run on, as CLOCK_BOOTTIME does.
    template <class Clock, class Duration, class Keep, class Send, class Each = detail::nothing>
    bool hear_since(std::chrono::time_point<Clock, Duration> since, std::string_view bytes, Keep &&keep, Send &&send,
                    Each &&each = Each()) {
        auto in_time = [&](std::uint8_t reply) {
            auto age = Clock::now() - since;
            return age <= std::chrono::seconds(LIS_SECONDS_REPLY * 2 / 3) && detail::went(send, reply);
        };
        return hear(bytes, keep, in_time, each);
    }

    // The receiver's timer ran out, LIS_SECONDS_RECEIVER after the last step that meant something.
    lis_step timer() noexcept {
        lis_step step;
        lis_receiver_timer(get(), &step);
        return step;
    }
    // Ends what is open: call it when a connection was lost, before the first byte of the next one.
    void restart() noexcept { lis_receiver_restart(get()); }
    // Says whether there is room for another frame from now on; without it a new frame is answered NAK.
    void set_room(bool room) noexcept { lis_receiver_set_room(get(), room); }
    // Says whether it hears carefully from now on: then one damaged byte of a frame acknowledges nothing. An ENQ on an
    // open line ends the session with no reply, and an STX inside an unfinished frame begins none.
    void set_careful(bool careful) noexcept { lis_receiver_set_careful(get(), careful); }
    // How many of these ENQ and STX it has heard carefully.
    std::uint64_t noise() const noexcept { return lis_receiver_noise(get()); }
    // Says how ENQ is answered from now on.
    void set_ready(lis_ready readiness) noexcept { (void)lis_receiver_set_ready(get(), readiness); }
    // Makes room for so many more bytes of text, as much for the text after it, and as much for the copy that keep
    // gets: so while no text is longer, none takes memory.
    [[nodiscard]] lis_status try_reserve(std::uint64_t bytes) noexcept {
        lis_status status = lis_receiver_reserve(get(), bytes);
        auto most = std::min<std::uint64_t>(held() + bytes, LIS_LIMIT_TEXT_BYTES);
        return status == LIS_STATUS_OK && !detail::has_room(text_, most) ? LIS_STATUS_OUT_OF_MEMORY : status;
    }
    // Sets how many bytes a text may have. A frame with which its text would have more is answered NAK and not taken.
    [[nodiscard]] lis_status try_set_text_limit(std::size_t bytes) noexcept {
        return lis_receiver_set_text_limit(get(), bytes);
    }
    // Sets how long the text of a frame may be, LIS_LIMIT_FRAME_TEXT or LIS_LIMIT_LONG_FRAME_TEXT, and makes the
    // receiver new.
    [[nodiscard]] lis_status try_set_frame_limit(std::size_t limit) noexcept {
        return lis_receiver_set_limit(get(), limit);
    }
#if defined(__cpp_exceptions)
    void reserve(std::uint64_t bytes) { detail::check(try_reserve(bytes)); }                  // as try_reserve
    void set_text_limit(std::size_t bytes) { detail::check(try_set_text_limit(bytes)); }      // as try_set_text_limit
    void set_frame_limit(std::size_t limit) { detail::check(try_set_frame_limit(limit)); }    // as try_set_frame_limit
#endif
    bool is_open() const noexcept { return lis_receiver_is_open(get()); }    // whether its timer runs
    // How many frames were accepted since the line was opened.
    std::uint64_t accepted() const noexcept { return lis_receiver_accepted(get()); }
    std::uint64_t held() const noexcept { return lis_receiver_held(get()); }    // bytes of a text that isn't complete
};

// Reads the records of a stream that comes in pieces: for (auto &record : reader.feed(bytes)) ..
class reader {
    detail::owner<lis_reader, lis_reader_size, lis_reader_align, lis_reader_init, lis_reader_end> own_;
    lis_found found_{};
    lis_delimiters delimiters_{'|', '\\', '^', '&'};
    std::string held_;               // the bytes of a record that came in earlier pieces, which the library holds too
    std::string copy_;               // the text of a record that began in an earlier piece
    std::string_view left_;          // of the last piece, from a record on that can't be read
    std::uint64_t read_ = 0;         // how many bytes were read, up to the end of a record
    bool searches_ = false;          // whether a header is searched for
    bool begins_ = false;            // and then whether a record begins with the next byte
    std::string_view text_;          // of the record that was read last
    std::vector<lis_part> parts_;
    std::size_t count_ = 0;
    bool split_ = false;             // whether `parts_` are those of the record that was read last

    lis_reader *get() noexcept { return own_.get(); }

    // The record that ended: its text, and the delimiters that a header declares.
    void take(std::string_view text) {
        read_ += held_.size() + text.size() + 1;
        split_ = false;
        text_ = text;
        if (!held_.empty()) {
            copy_.swap(held_);
            held_.clear();
            copy_ += text;
            text_ = copy_;
        }
        lis_record header;
        if (found_.letter == 'H')
            (void)lis_header_read(detail::at(text_), text_.size(), &delimiters_, &header);
    }

    // Takes what comes before the next header, if one is searched for.
    void search(std::string_view &bytes) noexcept {
        if (!searches_)
            return;
        std::size_t before = lis_header_find(detail::at(bytes), bytes.size(), &begins_);
        searches_ = before == bytes.size();
        read_ += before;
        bytes.remove_prefix(before);
    }

    // All parts of the record. It has fewer than it has bytes.
    void split() {
        if (split_)
            return;
        if (parts_.size() < text_.size())
            parts_.resize(text_.size());
        lis_table table;
        (void)lis_reader_parts(get(), parts_.data(), parts_.size(), &table);
        count_ = table.count;
        split_ = true;
    }

    // Reads on to the end of a record; false if there is none in these bytes, or one that can't be read.
    bool next(std::string_view &bytes) {
        search(bytes);
        std::string_view rest = bytes;
        while (!rest.empty()) {
            rest.remove_prefix(lis_reader_read(get(), detail::at(rest), rest.size(), &found_));
            if (found_.kind == LIS_FOUND_REFUSED) {
                left_ = bytes;
                return false;
            }
            if (found_.kind == LIS_FOUND_RECORD) {
                take(bytes.substr(0, bytes.size() - rest.size() - 1));
                bytes = rest;
                return true;
            }
        }
        held_ += bytes;
        bytes = rest;
        return false;
    }

public:
    // The record that was read last, good until the reader reads on and as long as the bytes are there.
    class record {
        reader *from_;
        friend class reader;
        explicit record(reader &from) noexcept : from_(&from) {}

        static auto key(const lis_part &part) noexcept { return std::tuple(part.field, part.repeat, part.component); }

    public:
        // Its letter in upper case.
        char letter() const noexcept { return static_cast<char>(from_->found_.letter); }
        // How many fields follow the letter, or a header's delimiters.
        std::size_t fields() const noexcept { return from_->found_.fields; }
        // The delimiters of its message.
        const lis_delimiters &delimiters() const noexcept { return from_->delimiters_; }
        // Its text, without the CR.
        std::string_view text() const noexcept { return from_->text_; }

        // The first of its parts, which are in the order of the text.
        const lis_part *begin() const {
            from_->split();
            return from_->parts_.data();
        }
        const lis_part *end() const { return begin() + from_->count_; }    // after its last part
        // The bytes of a part as they are in the text.
        std::string_view raw(const lis_part &part) const noexcept { return text().substr(part.offset, part.len); }
        // The bytes that a part means: its escapes are decoded.
        std::string plain(const lis_part &part) const {
            std::string out(raw(part));
            std::size_t size = out.size();
            if (part.flags & LIS_PART_ESCAPED)
                (void)lis_part_decode(&delimiters(), detail::at(raw(part)), part.len, detail::at(out), part.len, &size);
            out.resize(size);
            return out;
        }
        // What a component means; none if there is no such part. Fields are counted as the standard does: the first
        // after the letter is 2, after a header's delimiters 3; repeats and components from 0.
        std::optional<std::string> part(std::size_t field, std::size_t repeat = 0, std::size_t component = 0) const {
            auto wanted = std::tuple(field, repeat, component);
            auto found = std::lower_bound(begin(), end(), wanted,
                                          [](const lis_part &part, const auto &it) { return key(part) < it; });
            if (found == end() || key(*found) != wanted)
                return std::nullopt;
            return plain(*found);
        }
    };

    // The records that some bytes complete, to be gone through once.
    template <bool Throws> class records {
        reader *from_;
        std::string_view rest_;
        friend class reader;
        records(reader &from, std::string_view bytes) noexcept : from_(&from), rest_(bytes) {}

        bool advance() {
            bool more = from_->next(rest_);
#if defined(__cpp_exceptions)
            if constexpr (Throws)
                if (from_->found_.kind == LIS_FOUND_REFUSED)
                    throw message_error(from_->found_);
#endif
            return more;
        }

    public:
        class iterator {
            records *of_;
            record now_;

        public:
            using iterator_category = std::input_iterator_tag;
            using value_type = record;
            using difference_type = std::ptrdiff_t;
            using pointer = const record *;
            using reference = const record &;

            explicit iterator(records *of) noexcept : of_(of), now_(*of->from_) {}
            iterator(records *of, std::nullptr_t) noexcept : of_(nullptr), now_(*of->from_) {}
            reference operator*() const noexcept { return now_; }
            pointer operator->() const noexcept { return &now_; }
            iterator &operator++() {
                if (!of_->advance())
                    of_ = nullptr;
                return *this;
            }
            void operator++(int) { ++*this; }
            bool operator==(const iterator &other) const noexcept { return of_ == other.of_; }
            bool operator!=(const iterator &other) const noexcept { return of_ != other.of_; }
        };
        iterator begin() { return advance() ? iterator(this) : end(); }    // the next record
        iterator end() noexcept { return iterator(this, nullptr); }        // after the last one
    };

#if defined(__cpp_exceptions)
    reader() = default;
    // The records that end in these bytes. One that can't be read throws message_error, and then each call does.
    records<true> feed(std::string_view bytes) noexcept { return {*this, bytes}; }
    template <class Bytes, detail::if_dies<Bytes> = 0> void feed(Bytes &&) = delete;
    // The end of the stream: throws message_error if a message or a record isn't ended.
    void finish() {
        if (try_finish() != LIS_STATUS_OK)
            throw message_error(found_);
    }
#endif
    explicit reader(std::nothrow_t) noexcept : own_(std::nothrow) {}    // throws nothing
    explicit operator bool() const noexcept { return static_cast<bool>(own_); }    // false if there was no memory

    // As feed, without exceptions: it stops at a record that can't be read, and `refused` has it.
    records<false> try_feed(std::string_view bytes) noexcept { return {*this, bytes}; }
    template <class Bytes, detail::if_dies<Bytes> = 0> void try_feed(Bytes &&) = delete;
    // The end of the stream: LIS_STATUS_UNFINISHED if a message or a record isn't ended.
    [[nodiscard]] lis_status try_finish() noexcept { return lis_reader_finish(get(), &found_); }
    // The record that can't be read, of the last piece or of the end.
    std::optional<lis_found> refused() const noexcept {
        if (found_.kind == LIS_FOUND_REFUSED)
            return found_;
        return std::nullopt;
    }
    // After a record that can't be read: goes on at the next header, which may be that record. It gives the bytes of
    // the last piece that are left, to be fed again. The message that was open is dropped: it has no end.
    [[nodiscard]] std::string_view resume() {
        begins_ = lis_reader_resume(get());
        searches_ = true;
        found_ = lis_found{};
        std::string held;
        held.swap(held_);
        std::string_view header = held;
        search(header);
        if (!header.empty()) {    // the library holds it again
            lis_reader_read(get(), detail::at(header), header.size(), &found_);
            held_.swap(held);
        }
        return std::exchange(left_, std::string_view());
    }
    // How many bytes of the stream were read: up to the end of the last record, or up to the one that can't be read.
    std::uint64_t read() const noexcept { return read_; }
};

// A message as places in its text: its records, each with the one that it is under. No byte is copied: the text stays
// while the message is used.
class message {
    std::string_view text_;
    std::vector<lis_record_place> places_;
    lis_message told_{};
    lis_found found_{};

public:
    // Reads the message that a text begins with, and takes it from the front of the text; false where the text is empty
    // or doesn't begin with a whole message: then `refused` has why. The message is the one that was read last.
    [[nodiscard]] bool try_read(std::string_view &text) {
        auto read = [&](std::size_t room) {
            places_.resize(room);
            return lis_message_places(detail::at(text), text.size(), places_.data(), room, &told_, &found_);
        };
        lis_status status = read(std::max<std::size_t>(places_.capacity(), 16));
        if (status == LIS_STATUS_TOO_SHORT)
            status = read(told_.count);
        places_.resize(told_.count);
        text_ = text.substr(0, told_.len);
        text.remove_prefix(told_.len);
        return status == LIS_STATUS_OK;
    }
#if defined(__cpp_exceptions)
    // As try_read; a text that doesn't begin with a whole message throws message_error, and false is for an empty one.
    [[nodiscard]] bool read(std::string_view &text) {
        bool has = try_read(text);
        if (found_.kind == LIS_FOUND_REFUSED)
            throw message_error(found_);
        return has;
    }
#endif
    // Takes what can't be read from the front of a text, up to the next header.
    static void skip(std::string_view &text) noexcept {
        bool begins = false;
        text.remove_prefix(lis_header_find(detail::at(text), text.size(), &begins));
    }
    // The record that can't come next, or where the text ended too early.
    std::optional<lis_found> refused() const noexcept {
        return found_.kind == LIS_FOUND_REFUSED ? std::optional(found_) : std::nullopt;
    }

    std::size_t size() const noexcept { return places_.size(); }                           // how many records it has
    std::string_view text() const noexcept { return text_; }                               // with the CR of each
    const lis_delimiters &delimiters() const noexcept { return told_.delimiters; }         // those that it is read under
    char letter(std::size_t i) const { return static_cast<char>(places_.at(i).letter); }   // of a record, in upper case
    std::size_t parent(std::size_t i) const { return places_.at(i).parent; }    // the record that a record is under
    // A record's text, without the CR.
    std::string_view text(std::size_t i) const { return text_.substr(places_.at(i).start, places_[i].len); }
    // What a component of a record means; none if there is no such part. Fields are counted as the standard does: the
    // first after the letter is 2, after a header's delimiters 3; repeats and components from 0.
    std::optional<std::string> part(std::size_t i, std::size_t field, std::size_t repeat = 0,
                                    std::size_t component = 0) const {
        std::string_view of = text(i);
        std::string out(of);
        std::size_t size = 0;
        lis_status status = i == 0 ? lis_header_part(detail::at(of), of.size(), field, repeat, component,
                                                     detail::at(out), out.size(), &size)
                                   : lis_record_part(&told_.delimiters, detail::at(of), of.size(), field, repeat,
                                                     component, detail::at(out), out.size(), &size);
        if (status != LIS_STATUS_OK)
            return std::nullopt;
        out.resize(size);
        return out;
    }
    // Calls each(patient, order, result) for each result, with the places of its patient, of its order, and its own.
    template <class Each> void results(Each &&each) const {
        for (std::size_t i = 0; i < size(); ++i)
            if (letter(i) == 'R')
                each(parent(parent(i)), parent(i), i);
    }
};

// Writes records: writer.record('P').field("1").put(). Delimiters in a field are escaped. A field of two repeats is
// repeat("first").field("second"); each may have components before its last one.
class writer {
    detail::owner<lis_writer, lis_writer_size, lis_writer_align, lis_writer_init, lis_writer_end> own_;
    std::size_t field_ = 0;

    lis_writer *get() noexcept { return own_.get(); }
    const lis_writer *get() const noexcept { return own_.get(); }

public:
#if defined(__cpp_exceptions)
    writer() = default;
#endif
    explicit writer(std::nothrow_t) noexcept : own_(std::nothrow) {}    // throws nothing
    explicit operator bool() const noexcept { return static_cast<bool>(own_); }    // false if there was no memory

    // Drops all that was written, and begins with these delimiters.
    [[nodiscard]] lis_status try_start(const lis_delimiters &delimiters) noexcept {
        return lis_writer_start(get(), &delimiters);
    }
    // Begins a record by the letter of its kind.
    [[nodiscard]] lis_status try_record(char letter) noexcept {
        return lis_writer_record(get(), static_cast<std::uint8_t>(letter));
    }
    // Writes a component that another one of the same repeat follows.
    [[nodiscard]] lis_status try_component(std::string_view bytes) noexcept {
        return lis_writer_component(get(), detail::at(bytes), bytes.size());
    }
    // Writes the last component of a repeat that another repeat of the field follows.
    [[nodiscard]] lis_status try_repeat(std::string_view bytes) noexcept {
        return lis_writer_repeat(get(), detail::at(bytes), bytes.size());
    }
    // Writes the last component of a field, for most fields the only one.
    [[nodiscard]] lis_status try_field(std::string_view bytes) noexcept {
        return lis_writer_field(get(), detail::at(bytes), bytes.size());
    }
    // Puts the record after the others.
    [[nodiscard]] lis_status try_put() noexcept { return lis_writer_put(get(), &field_); }
    // The field that the last put failed for, 0 if none is at fault.
    std::size_t field_at_fault() const noexcept { return field_; }
#if defined(__cpp_exceptions)
    // As try_start.
    writer &start(const lis_delimiters &delimiters) { return detail::check(try_start(delimiters)), *this; }
    writer &record(char letter) { return detail::check(try_record(letter)), *this; }    // as try_record
    // As try_component.
    writer &component(std::string_view bytes) { return detail::check(try_component(bytes)), *this; }
    writer &repeat(std::string_view bytes) { return detail::check(try_repeat(bytes)), *this; }    // as try_repeat
    writer &field(std::string_view bytes) { return detail::check(try_field(bytes)), *this; }      // as try_field
    // As try_put; the error's index is the field at fault.
    writer &put() {
        lis_status status = try_put();
        return detail::check(status, field_, 0, at_fault::field), *this;
    }
#endif
    std::size_t size() const noexcept { return lis_writer_texts(get()); }    // how many records were put
    // The text of a record that was put, with its CR, by its place from 0; none if there are not so many.
    std::optional<std::string> text(std::size_t place) const {
        std::string out(lis_writer_text_len(get(), place), '\0');
        std::size_t size = 0;
        if (lis_writer_text(get(), place, detail::at(out), out.size(), &size) != LIS_STATUS_OK)
            return std::nullopt;
        return out;
    }
};

} // namespace lislink

#endif
