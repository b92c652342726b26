/* Both ends, analyzer and host, of the laboratory link of CLSI LIS01-A2 (ASTM E1381), and the records of CLSI LIS02-A2
 * (ASTM E1394), for C99 and C++11. This is version 1 of the interface; docs/library.md says what is stable.
 *
 * A loop that receives. `store` is yours: it gets the text by lis_receiver_text and returns whether it is on the disk.
 *
 *     lis_receiver receiver = {malloc(lis_receiver_size())};
 *     lis_receiver_init(receiver.at);
 *     lis_receiver_set_careful(&receiver, true);
 *     while ((got = read(line, bytes, sizeof bytes)) > 0)
 *         for (size_t heard = 0; heard < (size_t)got;) {
 *             heard += lis_receiver_hear(&receiver, bytes + heard, (size_t)got - heard, &step);
 *             if (step.has_text && !store(&receiver)) {
 *                 lis_receiver_restart(&receiver);
 *                 break;
 *             }
 *             if (step.reply != 0 && write(line, &step.reply, 1) != 1)
 *                 break;
 *         }
 *     lis_receiver_end(receiver);
 *
 * A program also calls lis_receiver_timer when a line is open and no note but quiet came for LIS_SECONDS_RECEIVER.
 * docs/first-program.md has the same with a clock, so that no reply is late, and in C++, Rust and Python.
 *
 * Link with liblislink, which has its heap in it. A program without malloc links with the archive of the proved crate
 * and brings a heap (the end of this file). Each call is proved to be safe, to end, and to do what the contract above
 * it in crates/lis_c/src says, for each caller that keeps the duties below. The exceptions are plain C, and say so:
 * they are tested. The duties of a caller:
 *
 *   - A pointer is not null and points to a whole value of its type. Nothing else uses that value while the call runs.
 *     A pointer and a length name that many bytes. A buffer that is written does not overlap one that is read. With
 *     the length 0 a pointer may be null: that is beyond the proof, and tested for each call.
 *   - A bool is 0 or 1.
 *   - A handle's `at` is a block of at least lis_X_size() bytes at a multiple of lis_X_align(), as LIS_X_BLOCK bytes at
 *     one of LIS_BLOCK_ALIGN, which was given to lis_X_init. From then to lis_X_end nothing else reads, writes or moves
 *     the block, and it has one handle. After lis_X_end the block is the caller's again, for anything, or for another
 *     lis_X_init.
 *   - The array that lis_sender_start_lent or lis_station_start_lent was given, and the texts that it names, stay
 *     unchanged in their places to the end of their session: until the phase is LIS_PHASE_NEUTRAL again, or the sender
 *     or the station is restarted or ended.
 *   - One thread at a time uses a handle and its block. Two handles have nothing in common.
 *   - No call is made from a signal handler, or in a forked child of a process with threads.
 *
 * Nothing else is asked: every length, every number and every order of calls is allowed. A handle keeps the pointer to
 * its block, and a sender or a station the pointers to borrowed texts; no call keeps another pointer. No call blocks,
 * prints or aborts, and one that takes its handle as const changes nothing. The proved code has no variable of its own.
 * Nothing checks a caller in C: docs/library.md lists the mistakes that a caller can make, and their consequences.
 *
 * The line. What is acknowledged has arrived, on two conditions that only the caller can keep:
 *
 *   - Store, then reply: the host stores a text where it lasts before it sends the reply (lis_step, below).
 *   - No reply after its timer: a late ACK would acknowledge a frame of the next session that nobody took. So the
 *     analyzer takes a new connection at the start of its process, and after a session that timed out or was
 *     restarted. On a serial line it waits longer than the computer takes to answer, drops all that came, and starts
 *     then. The host sends no reply if it last saw the line empty more than 10 seconds ago, which is two thirds of
 *     LIS_SECONDS_REPLY: it calls lis_receiver_restart instead.
 *
 * Memory. These take some: a sender in lis_sender_add_text, a receiver for the text that it holds, a station as these
 * two do, a reader for the bytes of one record, and a writer for the record that is begun and the texts of those that
 * are put; for long frames also lis_scanner_set_limit, lis_receiver_set_limit and lis_station_begin. lis_X_end gives it
 * back. All other calls take none. If there is no memory, the call says so, and what it leaves is said with it. */
#ifndef LISLINK_H
#define LISLINK_H

#include <stdbool.h>
#include <stddef.h>
#include <stdint.h>

/* The version of the interface: what this header has stays in it. */
#define LIS_INTERFACE 1
/* The release that this header is of, as the file VERSION has it; lis_version() has that of the library. */
#define LIS_VERSION "0.2.0"
/* The major version of that release. */
#define LIS_VERSION_MAJOR 0
/* Its minor version. */
#define LIS_VERSION_MINOR 2
/* Its patch number. */
#define LIS_VERSION_PATCH 0

/* A family of constants is a type of one byte: by the language in C++ and C23, by an attribute in gcc and clang, whose
 * -Wextra then warns of a constant of another family, and uint8_t elsewhere. A compiler warns of a status that isn't
 * looked at: in C++17 and C23, and before them gcc and clang. */
#if defined(__cplusplus) || (defined(__STDC_VERSION__) && __STDC_VERSION__ >= 202311L)
#define LIS_ENUM(name) typedef enum LIS_LOOKED_AT name : uint8_t
#define LIS_ENUM_END(name) name
#elif defined(__GNUC__)
#define LIS_ENUM(name) typedef enum __attribute__((__packed__)) name
#define LIS_ENUM_END(name) name
#else
#define LIS_ENUM(name) enum name
#define LIS_ENUM_END(name) ; typedef uint8_t name
#endif

#ifdef __cplusplus
extern "C" {
#endif

/* ---- Timers, limits and statuses. ---- */

/* The standard's timers, in seconds. The library has no clock: the caller runs the timers and calls lis_X_timer. */
enum lis_seconds {
    LIS_SECONDS_REPLY = 15,      /* of a sender that awaits the reply to ENQ or to a frame */
    LIS_SECONDS_BUSY = 10,       /* of a sender whose ENQ was not acknowledged: at least */
    LIS_SECONDS_CONTENTION = 1,  /* of an analyzer whose ENQ met the computer's: at least */
    LIS_SECONDS_RECEIVER = 30    /* of a receiver whose line is open */
};

/* Limits: the most of each. */
enum lis_limit {
    LIS_LIMIT_FRAME_TEXT = 240,       /* bytes of a frame's text */
    LIS_LIMIT_FRAME_BYTES = 247,      /* bytes of a frame */
    LIS_LIMIT_LONG_FRAME_TEXT = 63993,   /* bytes of a frame's text, with the long limit (lis_X_set_limit) */
    LIS_LIMIT_LONG_FRAME_BYTES = 64000,  /* bytes of a frame, with the long limit */
    LIS_LIMIT_TEXTS = 65536,          /* texts of a session */
    LIS_LIMIT_TEXT_BYTES = 1048576,   /* bytes of a text */
    LIS_LIMIT_RECORD_BYTES = 65536    /* bytes of a record without its CR */
};

/* For a block in static memory: how many bytes it has at most in version 1 of the interface, and what its address is a
 * multiple of. lis_X_size() and lis_X_align() are never more. */
enum lis_block {
    LIS_SCANNER_BLOCK = 512,     /* bytes of a scanner's block */
    LIS_SENDER_BLOCK = 256,      /* of a sender's */
    LIS_RECEIVER_BLOCK = 640,    /* of a receiver's */
    LIS_STATION_BLOCK = 896,     /* of a station's */
    LIS_READER_BLOCK = 256,      /* of a reader's */
    LIS_WRITER_BLOCK = 384,      /* of a writer's */
    LIS_BLOCK_ALIGN = 16         /* what the address of each is a multiple of */
};

#if (defined(__cplusplus) && __cplusplus >= 201703L) || (defined(__STDC_VERSION__) && __STDC_VERSION__ >= 202311L)
#define LIS_LOOKED_AT [[nodiscard]]
#else
#define LIS_LOOKED_AT
#endif
/* What a call that may fail returns. */
LIS_ENUM(lis_status) {
    LIS_STATUS_OK = 0,                  /* The call did what it is for. */
    LIS_STATUS_IN_SESSION = 1,          /* A session is going on. */
    LIS_STATUS_NO_TEXT = 2,             /* There is no text to send. */
    LIS_STATUS_TOO_LONG = 3,            /* There are more bytes than the limit allows. */
    LIS_STATUS_FORBIDDEN = 4,           /* The text has a byte that no text may hold: in a frame and a session 1 to 6,
                                         * 10 and 16 to 23; in a record any below 32 but 7, 9, 11 and 12, 127 and
                                         * 255. */
    LIS_STATUS_FULL = 5,                /* There are as many texts as a session may have. */
    LIS_STATUS_OUT_OF_MEMORY = 6,       /* There is no memory for it. */
    LIS_STATUS_BAD_NUMBER = 7,          /* The number is not one of those that are known. */
    LIS_STATUS_TOO_SHORT = 8,           /* The buffer is too short. */
    LIS_STATUS_NO_RECORD = 9,           /* The text has no byte; or no record is begun, or none was found last. */
    LIS_STATUS_BAD_LETTER = 10,         /* The byte is no letter of such a record, or no field delimiter follows it. */
    LIS_STATUS_BAD_DELIMITERS = 11,     /* The bytes are no four delimiters. */
    LIS_STATUS_ABSENT = 12,             /* There is no such part, frame or text. */
    LIS_STATUS_UNFINISHED = 13,         /* A message, a record or a field isn't ended; or a fault came before. */
    LIS_STATUS_PUT_NOT_HEADER = 14,     /* Outside a message a header comes first. */
    LIS_STATUS_PUT_NO_PARENT = 15,      /* An order belongs under a patient, a result under an order. */
    LIS_STATUS_PUT_SECOND_HEADER = 16,  /* The message already has its header. */
    LIS_STATUS_OLD_LINE = 17,           /* A session was started without a connection, or on one where a session
                                         * failed. */
    LIS_STATUS_LINE_OPEN = 18           /* A session of a station was started while the other side has the line. */
} LIS_ENUM_END(lis_status);
#undef LIS_LOOKED_AT
#define LIS_LOOKED_AT
/* Before C++17 and C23 it is an attribute of each call that makes gcc and clang warn. */
#ifdef __clang__
#pragma clang diagnostic push
#pragma clang diagnostic ignored "-Wdisabled-macro-expansion"
#endif
#if defined(__GNUC__) && (defined(__cplusplus) ? __cplusplus < 201703L : __STDC_VERSION__ + 0 < 202311L)
#define lis_status __attribute__((__warn_unused_result__)) lis_status
#endif

/* Bytes to be sent. */
typedef struct lis_bytes {
    size_t len;          /* how many they are; 0 if nothing is to be sent */
    uint8_t bytes[247];  /* the first `len` of these */
} lis_bytes;

/* Where the texts of a session are at fault. */
typedef struct lis_place {
    size_t index;    /* which text, from 0 */
    size_t place;    /* which byte of it no text may hold, from 0 */
} lis_place;

/* ---- Scanner: bytes of the link in, signals out. ---- */

/* What a signal is. */
LIS_ENUM(lis_signal_kind) {
    LIS_SIGNAL_NONE = 0,        /* No signal. */
    LIS_SIGNAL_ENQ = 1,         /* ENQ. */
    LIS_SIGNAL_EOT = 2,         /* EOT. */
    LIS_SIGNAL_FRAME = 3,       /* A good frame. */
    LIS_SIGNAL_BAD_FRAME = 4,   /* A bad frame, for a lis_fault. */
    LIS_SIGNAL_LONG_FRAME = 5   /* A good frame whose text has over 240 bytes; only after lis_scanner_set_limit. */
} LIS_ENUM_END(lis_signal_kind);

/* What is wrong with a frame: the first that applies. */
LIS_ENUM(lis_fault) {
    LIS_FAULT_NONE = 0,         /* Nothing. */
    LIS_FAULT_TOO_LONG = 1,     /* It has more bytes than a frame may have. */
    LIS_FAULT_SHAPE = 2,        /* There are no end byte, checksum, CR and LF in their places. */
    LIS_FAULT_NUMBER = 3,       /* Its number is no digit from 0 to 7. */
    LIS_FAULT_FORBIDDEN = 4,    /* Its text has a byte that no text may hold. */
    LIS_FAULT_SUM = 5           /* Its checksum does not match. */
} LIS_ENUM_END(lis_fault);

/* A signal. Fields that do not apply to its kind are 0. */
typedef struct lis_signal {
    lis_signal_kind kind;   /* what it is */
    uint8_t number;         /* of a good frame: its number */
    bool last;              /* of a good frame: whether it is an end frame, the last of its text */
    lis_fault fault;        /* of a bad frame: what is wrong with it */
    size_t place;           /* with LIS_FAULT_FORBIDDEN: the byte's place in the text */
    size_t len;             /* of LIS_SIGNAL_FRAME: how many bytes its text has; lis_scanner_text has a long one's */
    uint8_t text[240];      /* of LIS_SIGNAL_FRAME: the first `len` of these are its text */
} lis_signal;

/* A handle of a scanner. */
typedef struct lis_scanner {
    void *at;    /* its block */
} lis_scanner;

/* How many bytes the block of a scanner has. */
size_t lis_scanner_size(void);
/* The alignment that this block needs, in bytes. */
size_t lis_scanner_align(void);
/* Makes a new scanner in the block, which has read nothing. */
void lis_scanner_init(void *at);
/* Gives the scanner's memory back; the block is the caller's again. To start again, call _end and then _init. */
void lis_scanner_end(lis_scanner s);
/* Sets how long the text of a frame may be, LIS_LIMIT_FRAME_TEXT (as after _init) or LIS_LIMIT_LONG_FRAME_TEXT, and
 * starts again, as after _init. LIS_STATUS_BAD_NUMBER for another limit, LIS_STATUS_OUT_OF_MEMORY: then nothing has
 * changed. The long limit takes about 128 kB from the heap, which the other limit or _end gives back. */
lis_status lis_scanner_set_limit(lis_scanner *s, size_t limit);
/* Reads one byte: `out` is the signal that it completes. It is always written. */
void lis_scanner_push(lis_scanner *s, uint8_t byte, lis_signal *out);
/* Reads bytes up to the first that completes a signal, or all of them if none does, and returns how many it read.
 * `out` is that signal, and is always written. */
size_t lis_scanner_feed(lis_scanner *s, const uint8_t *bytes, size_t bytes_len, lis_signal *out);
/* How many bytes the text of a LIS_SIGNAL_LONG_FRAME has, until the next byte is read; 0 after any other signal. */
size_t lis_scanner_text_len(const lis_scanner *s);
/* Copies that text to the front of `out`. LIS_STATUS_TOO_SHORT if `out` is shorter: then nothing is copied. */
lis_status lis_scanner_text(const lis_scanner *s, uint8_t *out, size_t out_len);

/* ---- Frames. ---- */

/* Writes a frame. LIS_STATUS_TOO_LONG or LIS_STATUS_FORBIDDEN if the text can't be sent, LIS_STATUS_BAD_NUMBER if the
 * number is over 7. `place` is always written: the forbidden byte's place, else 0. `out` is written only with
 * LIS_STATUS_OK. */
lis_status lis_frame_write(uint8_t number, bool last, const uint8_t *text, size_t text_len, lis_bytes *out,
                           size_t *place);
/* Writes a frame whose text has up to LIS_LIMIT_LONG_FRAME_TEXT bytes to the front of `out`; `size` is its length. It
 * fails as lis_frame_write does, and with LIS_STATUS_TOO_SHORT if the frame, 7 bytes longer than its text, does not
 * fit. `size` and `place` are always written, `size` as 0 if it fails; `out` only with LIS_STATUS_OK. The frame is
 * written in `out` itself: it takes no heap and little of the stack. */
lis_status lis_long_frame_write(uint8_t number, bool last, const uint8_t *text, size_t text_len, uint8_t *out,
                                size_t out_len, size_t *size, size_t *place);

/* ---- Sender: texts in, the bytes of a session out. ---- */

/* What a sender waits for, and the timer that runs meanwhile. */
LIS_ENUM(lis_phase) {
    LIS_PHASE_NEUTRAL = 0,      /* Nothing: no session goes on, and no timer runs. */
    LIS_PHASE_AWAIT_LINE = 1,   /* ENQ was sent, and its reply is awaited for LIS_SECONDS_REPLY. */
    LIS_PHASE_BUSY = 2,         /* The computer is busy; ENQ is sent again after LIS_SECONDS_BUSY. */
    LIS_PHASE_CONTENTION = 3,   /* The computer sent ENQ too; ENQ is sent again after LIS_SECONDS_CONTENTION. */
    LIS_PHASE_AWAIT_REPLY = 4   /* A frame was sent, and its reply is awaited for LIS_SECONDS_REPLY. */
} LIS_ENUM_END(lis_phase);

/* How a session ended. Only LIS_OUTCOME_DONE says that all texts were acknowledged. */
LIS_ENUM(lis_outcome) {
    LIS_OUTCOME_NONE = 0,       /* There was no session yet, or one is going on. */
    LIS_OUTCOME_DONE = 1,       /* Each text was acknowledged. */
    LIS_OUTCOME_TIMED_OUT = 2,  /* No reply came in time. */
    LIS_OUTCOME_SIX_TRIES = 3,  /* A frame was answered otherwise than by ACK or EOT six times. */
    LIS_OUTCOME_RESTARTED = 4   /* It was restarted, for example by lis_sender_restart. */
} LIS_ENUM_END(lis_outcome);

/* A text that stays with the caller. */
typedef struct lis_text {
    const uint8_t *bytes;    /* its bytes */
    size_t bytes_len;        /* how many they are */
} lis_text;

/* A handle of a sender. */
typedef struct lis_sender {
    void *at;    /* its block */
} lis_sender;

/* How many bytes the block of a sender has. */
size_t lis_sender_size(void);
/* The alignment that this block needs, in bytes. */
size_t lis_sender_align(void);
/* Makes a new sender in the block: without a text, and without a session. */
void lis_sender_init(void *at);
/* Gives the sender's memory back; the block is the caller's again. */
void lis_sender_end(lis_sender s);
/* Sets how long the text of a frame may be, LIS_LIMIT_FRAME_TEXT (as after _init) or LIS_LIMIT_LONG_FRAME_TEXT, and
 * makes the sender new, as after _init, but for the texts of the next session, which stay. LIS_STATUS_IN_SESSION while
 * a session goes on, LIS_STATUS_BAD_NUMBER for another limit: then nothing has changed. With the long limit a frame may
 * have more bytes than a lis_bytes has room for, and the calls need a stack of 720 kB: see lis_sender_frame. */
lis_status lis_sender_set_limit(lis_sender *s, size_t limit);
/* Whether a session takes these bytes as a text: LIS_STATUS_OK, LIS_STATUS_TOO_LONG if they are over
 * LIS_LIMIT_TEXT_BYTES, or LIS_STATUS_FORBIDDEN. `place` is always written: the forbidden byte's place, else 0. */
lis_status lis_text_check(const uint8_t *text, size_t text_len, size_t *place);
/* Adds a copy of a text to the next session, also while one goes on. A text is a record with its CR, or several: without
 * it the other side reads two records as one. LIS_STATUS_TOO_LONG or LIS_STATUS_FORBIDDEN as lis_text_check, which
 * finds the byte; else LIS_STATUS_FULL or LIS_STATUS_OUT_OF_MEMORY. Then nothing has changed. */
lis_status lis_sender_add_text(lis_sender *s, const uint8_t *text, size_t text_len);
/* Drops the texts of the next session. */
void lis_sender_clear(lis_sender *s);
/* Starts a session with the texts that were added: `out` has ENQ, to be sent. Else LIS_STATUS_IN_SESSION or
 * LIS_STATUS_NO_TEXT, and the texts stay. `fault` is always written, as 0. `out` is written only with LIS_STATUS_OK.
 *
 * The session takes the texts: once it is over, however it ended, the sender has none of them. So keep your own until
 * LIS_OUTCOME_DONE, and add them again for another try. */
lis_status lis_sender_start(lis_sender *s, lis_bytes *out, lis_place *fault);
/* Starts a session with texts that stay with the caller, and takes no memory. It fails as lis_sender_start does, with
 * LIS_STATUS_FULL if there are more than LIS_LIMIT_TEXTS, and with LIS_STATUS_TOO_LONG or LIS_STATUS_FORBIDDEN: then
 * `fault` has the text and the place. The texts that were added stay for the next session. */
lis_status lis_sender_start_lent(lis_sender *s, const lis_text *texts, size_t texts_len, lis_bytes *out,
                                 lis_place *fault);
/* A reply byte came: `out` is what is to be sent, and is always written. If nothing is to be sent and the phase is as
 * before, the timer runs on; else it starts again. With the long limit lis_sender_frame may have what is to be sent. */
void lis_sender_reply(lis_sender *s, uint8_t byte, lis_bytes *out);
/* Copies the frame that was sent and awaits its reply to the front of `out`; `size` is its length. LIS_STATUS_ABSENT if
 * no frame awaits its reply; LIS_STATUS_TOO_SHORT if it is longer than `out`: then nothing is copied, and you can call
 * it again with more room. `size` is always written, as 0 if it fails.
 *
 * With the long limit a frame of over LIS_LIMIT_FRAME_BYTES bytes leaves `out` of lis_sender_reply empty: if
 * lis_sender_frame then returns LIS_STATUS_OK, that frame is to be sent. With that limit lis_sender_reply takes up to
 * 720 kB of the stack, lis_sender_frame 450 kB, lis_sender_timer 200 kB, and a start 65 kB. */
lis_status lis_sender_frame(const lis_sender *s, uint8_t *out, size_t out_len, size_t *size);
/* The phase's timer ran out: `out` is what is to be sent, and is always written. In LIS_PHASE_BUSY and
 * LIS_PHASE_CONTENTION it is ENQ again, however often: count, and give up by lis_sender_restart. Where a reply was
 * awaited it is EOT, and the session is over: LIS_OUTCOME_TIMED_OUT. */
void lis_sender_timer(lis_sender *s, lis_bytes *out);
/* Gives up the session that goes on, as when the connection is lost: the outcome is LIS_OUTCOME_RESTARTED, the texts of
 * the session are dropped, those added for the next one stay, and nothing is sent. A text of it may have arrived
 * without its ACK. Without a session nothing changes. */
void lis_sender_restart(lis_sender *s);
/* What the sender waits for. */
lis_phase lis_sender_phase(const lis_sender *s);
/* How the last session ended. */
lis_outcome lis_sender_outcome(const lis_sender *s);
/* How many frames of the session are acknowledged. */
uint64_t lis_sender_acknowledged(const lis_sender *s);

/* ---- A sender and its connection: plain C (src/c/connection.c), tested and not proved. ----
 *
 * A reply has no mark of its session, so a late one can acknowledge what nobody took. These calls keep the sender's
 * duty: a session starts only on a connection on which no session was left without its reply, and a reply is heard
 * only if it came over the connection of its session. Of the calls of lis_sender use those for texts, phase and outcome
 * with them, and no others. */

/* A sender and the connection that it uses. */
typedef struct lis_line {
    lis_sender sender;      /* the sender */
    uint64_t connection;    /* the number of its connection; 0 before the first */
    bool spent;             /* whether a late reply may come over it: then no session starts */
} lis_line;

/* Makes a line, without a connection yet, of a sender that lis_sender_init made. To end it, end the sender. */
void lis_line_init(lis_line *line, lis_sender sender);
/* A new connection was made; or a serial line was waited for, longer than the computer takes to answer, and what came
 * was dropped. Returns the connection's number. A session that goes on is restarted. */
uint64_t lis_line_connected(lis_line *line);
/* As lis_sender_start, but LIS_STATUS_OLD_LINE, and nothing has changed, while a late reply could come: before the
 * first lis_line_connected; and, from when a session timed out or was restarted, until lis_line_connected is called
 * again. After LIS_OUTCOME_DONE and LIS_OUTCOME_SIX_TRIES the connection can be used on. */
lis_status lis_line_start(lis_line *line, lis_bytes *out, lis_place *fault);
/* The same, as lis_sender_start_lent. */
lis_status lis_line_start_lent(lis_line *line, const lis_text *texts, size_t texts_len, lis_bytes *out,
                               lis_place *fault);
/* A byte came over the connection of this number. If that is the present one, and no session failed on it: as
 * lis_sender_reply. Else the byte is dropped, and nothing is to be sent. */
void lis_line_reply(lis_line *line, uint64_t connection, uint8_t byte, lis_bytes *out);
/* After lis_line_reply for the same byte: as lis_sender_frame; also LIS_STATUS_ABSENT if that byte was dropped. */
lis_status lis_line_frame(const lis_line *line, uint64_t connection, uint8_t *out, size_t out_len, size_t *size);
/* As lis_sender_timer. */
void lis_line_timer(lis_line *line, lis_bytes *out);
/* As lis_sender_restart. */
void lis_line_restart(lis_line *line);
/* Whether the sender's timer runs; `seconds` is how long it runs in its phase, and is always written, else as 0. */
bool lis_sender_timer_seconds(const lis_sender *s, uint32_t *seconds);

/* ---- Receiver: bytes of the link in, replies and texts out. ---- */

/* What a byte or the timer meant. */
LIS_ENUM(lis_note) {
    LIS_NOTE_QUIET = 0,             /* Nothing yet. */
    LIS_NOTE_OPENED = 1,            /* ENQ: a session begins, and what was held of an earlier text is dropped. */
    LIS_NOTE_NOT_READY = 2,         /* ENQ came, and was answered as lis_receiver_set_ready set. */
    LIS_NOTE_ENDED = 3,             /* EOT: the session is over. */
    LIS_NOTE_ACCEPTED = 4,          /* A frame was taken; detail: its number. */
    LIS_NOTE_DUPLICATE = 5,         /* A frame came again that was taken before; detail: its number. */
    LIS_NOTE_OUT_OF_TURN = 6,       /* A frame came that isn't the next one; detail: its number. */
    LIS_NOTE_REFUSED = 7,           /* A bad frame; detail: a lis_fault; place: the forbidden byte's. */
    LIS_NOTE_NO_ROOM = 8,           /* There is no room for a frame, as set by lis_receiver_set_room. */
    LIS_NOTE_TOO_LONG = 9,          /* The text would have over LIS_LIMIT_TEXT_BYTES, or over the receiver's limit. */
    LIS_NOTE_TOO_MANY = 10,         /* 4,294,967,295 frames were accepted in this session. */
    LIS_NOTE_OUT_OF_MEMORY = 11,    /* The frame is answered NAK and not taken. */
    LIS_NOTE_TIMED_OUT = 12         /* The line is closed, and what was held is dropped. */
} LIS_ENUM_END(lis_note);

/* How ENQ is answered. */
LIS_ENUM(lis_ready) {
    LIS_READY_YES = 0,          /* ACK. */
    LIS_READY_BUSY = 1,         /* NAK. */
    LIS_READY_CONTENDING = 2    /* ENQ, as a computer does that wants to send first. */
} LIS_ENUM_END(lis_ready);

/* A step: what a byte or the timer meant, and what is to be done.
 *
 * Keep, then reply. The reply to a completed text acknowledges it, and the sender then gives it up. So copy the text by
 * lis_receiver_text and keep it where it lasts, and only then send the reply. If it can't be kept, send no reply and
 * call lis_receiver_restart: the session fails at the sender, which still has all its texts. A NAK in place of the
 * reply would lose the text: its frame was taken, so the same frame again is a duplicate, and is acknowledged without
 * its text. Send no reply either if the line was last seen empty more than two thirds of LIS_SECONDS_REPLY ago: call
 * lis_receiver_restart. The text may then come once more. */
typedef struct lis_step {
    uint8_t reply;      /* the byte to send; 0 for none */
    bool has_text;      /* whether a text is complete */
    lis_note note;      /* what it meant */
    uint8_t detail;     /* as the note says, else 0 */
    size_t place;       /* as the note says, else 0 */
} lis_step;

/* A handle of a receiver. */
typedef struct lis_receiver {
    void *at;    /* its block */
} lis_receiver;

/* How many bytes the block of a receiver has. */
size_t lis_receiver_size(void);
/* The alignment that this block needs, in bytes. */
size_t lis_receiver_align(void);
/* Makes a new receiver in the block: ready, with room, on a line that isn't open. */
void lis_receiver_init(void *at);
/* Gives the receiver's memory back; the block is the caller's again. */
void lis_receiver_end(lis_receiver s);
/* Sets how long the text of a frame may be, LIS_LIMIT_FRAME_TEXT (as after _init) or LIS_LIMIT_LONG_FRAME_TEXT, and
 * makes the receiver new, as after _init. LIS_STATUS_BAD_NUMBER for another limit, LIS_STATUS_OUT_OF_MEMORY: then
 * nothing has changed. The long limit takes about 64 kB from the heap, which the other limit or _end gives back. All
 * other calls are the same. */
lis_status lis_receiver_set_limit(lis_receiver *s, size_t limit);
/* Hears one byte. `out` is always written. */
void lis_receiver_byte(lis_receiver *s, uint8_t byte, lis_step *out);
/* Hears bytes up to the first that means something, or all of them if none does, and returns how many it heard. `out`
 * is always written. Call it again with the rest. */
size_t lis_receiver_hear(lis_receiver *s, const uint8_t *bytes, size_t bytes_len, lis_step *out);
/* The receiver's timer ran out: LIS_SECONDS_RECEIVER went by since the last step that was not LIS_NOTE_QUIET. `out` is
 * always written. On a line that isn't open it is quiet, and nothing changes. */
void lis_receiver_timer(lis_receiver *s, lis_step *out);
/* Ends what is open: the line is closed, the text that isn't complete is dropped, and the receiver is ready and has
 * room. The text that was completed last stays, and nothing is sent. Call it if a text can't be kept, if a reply would
 * be late, and for each connection that was lost, before the first byte of the next one. */
void lis_receiver_restart(lis_receiver *s);
/* Says whether there is room for another frame from now on: without it a new frame is answered NAK. */
void lis_receiver_set_room(lis_receiver *s, bool room);
/* Says how ENQ is answered from now on. LIS_STATUS_BAD_NUMBER: then nothing has changed. Once an ENQ was answered as
 * LIS_READY_CONTENDING says, the receiver is ready again. */
lis_status lis_receiver_set_ready(lis_receiver *s, lis_ready readiness);
/* Makes room for so many more bytes of text, and as much for the text after it: so once no text is longer, none takes
 * memory, until lis_receiver_set_limit. LIS_STATUS_TOO_LONG if no text may have so many, LIS_STATUS_OUT_OF_MEMORY. What
 * is held stays. */
lis_status lis_receiver_reserve(lis_receiver *s, uint64_t bytes);
/* Makes the receiver new, as lis_receiver_set_limit with LIS_LIMIT_FRAME_TEXT does, but with its texts in this buffer: it
 * takes no other memory. A text may have (buffer_len - 2) / 2 bytes, as after lis_receiver_set_text_limit, because the
 * text that is held and the one that was completed last both have a place. The buffer is the receiver's until
 * lis_receiver_set_limit, the next lis_receiver_lend or lis_receiver_end. LIS_STATUS_TOO_SHORT with less than 4 bytes:
 * then nothing has changed. Plain C (src/c/lent.c), tested and not proved; it needs the heap of src/c/heap.c. */
lis_status lis_receiver_lend(lis_receiver *s, uint8_t *buffer, size_t buffer_len);
/* Sets how many bytes a text may have, LIS_LIMIT_TEXT_BYTES as after _init or fewer, until lis_receiver_set_limit. A
 * frame with which its text would have more is answered NAK and not taken: LIS_NOTE_TOO_LONG. LIS_STATUS_TOO_LONG if it
 * is over LIS_LIMIT_TEXT_BYTES: then nothing has changed. */
lis_status lis_receiver_set_text_limit(lis_receiver *s, size_t bytes);
/* Says whether the receiver hears carefully from now on; it doesn't after _init, and _set_limit and _restart leave it.
 * Give it true after _init: then one damaged byte of a frame acknowledges nothing. lis_receiver_hear and
 * lis_receiver_byte follow it. An ENQ on an open line, also one that was a byte of a frame, ends the session as EOT
 * does, with no reply: LIS_NOTE_ENDED. An analyzer that starts again without EOT is answered at its next ENQ. An STX
 * inside an unfinished frame begins none, and that frame is answered NAK. All else is heard as it is without it. */
void lis_receiver_set_careful(lis_receiver *s, bool careful);
/* How much noise was heard carefully since _init or _set_limit: each ENQ on an open line, and each STX inside an
 * unfinished frame of one. It grows by what lis_receiver_hear and lis_receiver_byte hear. */
uint64_t lis_receiver_noise(const lis_receiver *s);
/* Whether the line is open, and so the receiver's timer runs. */
bool lis_receiver_is_open(const lis_receiver *s);
/* The same; `seconds` is how long it runs, and is always written, else as 0. Plain C, in src/c/connection.c. */
bool lis_receiver_timer_seconds(const lis_receiver *s, uint32_t *seconds);
/* How many frames were accepted since the line was last opened. */
uint64_t lis_receiver_accepted(const lis_receiver *s);
/* How many bytes are held of a text that isn't complete. */
uint64_t lis_receiver_held(const lis_receiver *s);
/* How many bytes the text has that was completed last; 0 before the first. */
size_t lis_receiver_text_len(const lis_receiver *s);
/* Copies the text that was completed last, until the next one is. LIS_STATUS_TOO_SHORT if `out` is shorter: then
 * nothing is copied. */
lis_status lis_receiver_text(const lis_receiver *s, uint8_t *out, size_t out_len);

/* ---- Station: a side of a line on which both sides send (LIS01-A2, 6.2.7 and 6.5). ----
 *
 * A station is a sender and a receiver, and knows which of the two a byte is for. Where both sides send, use it in
 * place of the two: one sender and one receiver on such a line can lose a text (docs/protocol.md, 'A bidirectional
 * line').
 * Hear all that came before you let the timer run out. The sender's duty is a station's too: no late reply may come
 * once a session starts after one that timed out or was restarted, nor once ENQ goes out again after a wait. */

/* Which side a station is. If both sides ask for the line at once, the computer waits for the analyzer's session. */
LIS_ENUM(lis_role) {
    LIS_ROLE_ANALYZER = 0,      /* The analyzer's. */
    LIS_ROLE_COMPUTER = 1       /* The computer's. */
} LIS_ENUM_END(lis_role);

/* What a byte or the timer meant to a station, and what is to be sent.
 *
 * Keep, then send, as for `lis_step`. But if a text can't be kept, call lis_station_close_line, and start no session
 * for longer than LIS_SECONDS_REPLY. The timer starts again after each answer but a step that is LIS_NOTE_QUIET. */
typedef struct lis_answer {
    bool is_step;      /* whether it was for the receiver; else it was for the sender */
    lis_bytes send;    /* what is to be sent: the step's reply, or what the sender sends */
    lis_step step;     /* the receiver's step; all 0 if it was for the sender */
} lis_answer;

/* A handle of a station. */
typedef struct lis_station {
    void *at;    /* its block */
} lis_station;

/* How many bytes the block of a station has. */
size_t lis_station_size(void);
/* The alignment that this block needs, in bytes. */
size_t lis_station_align(void);
/* Makes a new station in the block: a computer's, whose frames' texts have at most LIS_LIMIT_FRAME_TEXT bytes. */
void lis_station_init(void *at);
/* Gives the station's memory back; the block is the caller's again. */
void lis_station_end(lis_station s);
/* Sets the role, and how long the text of a frame may be, LIS_LIMIT_FRAME_TEXT or LIS_LIMIT_LONG_FRAME_TEXT, and makes
 * the station new, without a text. LIS_STATUS_BAD_NUMBER for another role or limit, LIS_STATUS_OUT_OF_MEMORY: then
 * nothing has changed. The long limit takes about 64 kB from the heap, and its calls need a stack of 900 kB: see
 * lis_station_frame. */
lis_status lis_station_begin(lis_station *s, lis_role role, size_t limit);
/* Adds a copy of a text to the next session, as lis_sender_add_text. */
lis_status lis_station_add_text(lis_station *s, const uint8_t *text, size_t text_len);
/* Drops the texts of the next session. */
void lis_station_clear(lis_station *s);
/* Asks for the line, to send the texts that were added: `out` has ENQ, to be sent. LIS_STATUS_LINE_OPEN while the other
 * side has the line; else it fails as lis_sender_start does. The session is over when the phase is LIS_PHASE_NEUTRAL
 * again. */
lis_status lis_station_start(lis_station *s, lis_bytes *out, lis_place *fault);
/* The same with texts that stay with the caller: it takes no memory. Also LIS_STATUS_FULL if there are more than
 * LIS_LIMIT_TEXTS. The texts that were added stay for the next session. */
lis_status lis_station_start_lent(lis_station *s, const lis_text *texts, size_t texts_len, lis_bytes *out,
                                  lis_place *fault);
/* Hears one byte. `out` is always written. EOT in reply to a frame is taken as NAK, since it may be the end of a
 * session that the other side asked for: lis_station_turn_asked reports it. */
void lis_station_byte(lis_station *s, uint8_t byte, lis_answer *out);
/* Hears one byte if a reply is awaited, else bytes up to the first that means something, or all of them if none does;
 * returns how many it heard. `out` is always written. Call it again with the rest. */
size_t lis_station_hear(lis_station *s, const uint8_t *bytes, size_t bytes_len, lis_answer *out);
/* The timer ran out. `out` is always written; if no timer runs, nothing changes. */
void lis_station_timer(lis_station *s, lis_answer *out);
/* Whether a timer runs; `seconds` is how long it runs before lis_station_timer is due, and is always written, else as
 * 0. While the other side has the line it is the receiver's. 0 seconds with a timer: the analyzer has had its session
 * after both asked, and a computer may ask at once. */
bool lis_station_timer_seconds(const lis_station *s, uint32_t *seconds);
/* With the long limit, after an answer of the sender with nothing in `send`: as lis_sender_frame. With that limit
 * lis_station_hear takes up to 900 kB of the stack, lis_station_byte 720 kB, lis_station_frame 450 kB, and a start
 * 65 kB. */
lis_status lis_station_frame(const lis_station *s, uint8_t *out, size_t out_len, size_t *size);
/* Gives up the station's own session, as lis_sender_restart. */
void lis_station_give_up(lis_station *s);
/* Drops the other side's session, as lis_receiver_restart, but that readiness stays. The text that was completed last
 * stays too. */
void lis_station_close_line(lis_station *s);
/* Does both, as when the connection is lost; the receiver is ready then. */
void lis_station_restart(lis_station *s);
/* Says whether the other side gets the line from now on: its ENQ is answered ACK, or NAK. */
void lis_station_set_ready(lis_station *s, bool ready);
/* While the other side has the line: asks it to let this side send. The next frame that is accepted is answered EOT in
 * place of ACK. */
void lis_station_ask_turn(lis_station *s);
/* Whether the other side asked so, in the last session of this side, and hasn't had the line since. */
bool lis_station_turn_asked(const lis_station *s);
/* For how many seconds this side should start no session, because the other side waits for its turn; 0 if it
 * doesn't. */
uint32_t lis_station_turn_seconds(const lis_station *s);
/* Says whether the station hears carefully from now on, as lis_receiver_set_careful; _begin and _restart leave it. A
 * reply, which the sender hears, is heard as it is without it. */
void lis_station_set_careful(lis_station *s, bool careful);
/* As lis_receiver_noise, since _init or _begin. */
uint64_t lis_station_noise(const lis_station *s);
/* Whether the next byte is a reply. */
bool lis_station_awaits_reply(const lis_station *s);
/* As lis_receiver_reserve. */
lis_status lis_station_reserve(lis_station *s, uint64_t bytes);
/* Makes the station new, as lis_station_begin with LIS_LIMIT_FRAME_TEXT does, but with the texts that it receives in this
 * buffer, as lis_receiver_lend. With lis_station_start_lent it takes no other memory. A frame with which a text would
 * have more than (buffer_len - 2) / 2 bytes is answered NAK and not taken: LIS_NOTE_OUT_OF_MEMORY. LIS_STATUS_TOO_SHORT
 * with less than 4 bytes, LIS_STATUS_BAD_NUMBER for another role: then nothing has changed. */
lis_status lis_station_lend(lis_station *s, lis_role role, uint8_t *buffer, size_t buffer_len);
/* As lis_sender_phase. */
lis_phase lis_station_phase(const lis_station *s);
/* As lis_sender_outcome. */
lis_outcome lis_station_outcome(const lis_station *s);
/* As lis_sender_acknowledged. */
uint64_t lis_station_acknowledged(const lis_station *s);
/* As lis_receiver_is_open. */
bool lis_station_is_open(const lis_station *s);
/* As lis_receiver_accepted. */
uint64_t lis_station_accepted(const lis_station *s);
/* As lis_receiver_held. */
uint64_t lis_station_held(const lis_station *s);
/* As lis_receiver_text_len. */
size_t lis_station_text_len(const lis_station *s);
/* As lis_receiver_text. */
lis_status lis_station_text(const lis_station *s, uint8_t *out, size_t out_len);

/* A station and its connection: plain C (src/c/connection.c), tested and not proved. A session starts only if no late
 * reply could meet it. All other calls are those of the station. */
typedef struct lis_station_line {
    lis_station station;    /* the station */
    bool is_new;            /* whether no session was started on its connection yet */
} lis_station_line;

/* Makes a line, without a connection yet, of a station that lis_station_init made. To end it, end the station. */
void lis_station_line_init(lis_station_line *line, lis_station station);
/* A new connection was made; or a serial line was waited for, longer than the other side takes to answer, and what came
 * was dropped. The station is restarted. */
void lis_station_line_connected(lis_station_line *line);
/* As lis_station_start, but LIS_STATUS_OLD_LINE, and nothing has changed, while a late reply could come: before the
 * first lis_station_line_connected; and after a session that timed out or was given up, until it is called again. */
lis_status lis_station_line_start(lis_station_line *line, lis_bytes *out, lis_place *fault);
/* The same, as lis_station_start_lent. */
lis_status lis_station_line_start_lent(lis_station_line *line, const lis_text *texts, size_t texts_len, lis_bytes *out,
                                       lis_place *fault);
/* Whether a late reply could meet the station's next ENQ, that of a start or the one after a wait: over a line that
 * answers late, connect it again first (docs/protocol.md, 'A bidirectional line that answers late'). */
bool lis_station_line_needs_new(const lis_station_line *line);

/* ---- Records, each a text without its CR. These calls take no memory and keep nothing. ---- */

/* The delimiters of a message, in the order of its header. */
typedef struct lis_delimiters {
    uint8_t field;        /* between fields, usually | */
    uint8_t repeat;       /* between the repeats of a field, usually a backslash */
    uint8_t component;    /* between the components of a repeat, usually ^ */
    uint8_t escape;       /* around an escape, usually & */
} lis_delimiters;

/* A record, or why a text can't be one. */
typedef struct lis_record {
    uint8_t letter;    /* its letter in upper case; 0 if the text is no record */
    size_t fields;     /* how many fields follow the letter, or a header's delimiters; 0 if the text is no record */
    size_t place;      /* with LIS_STATUS_FORBIDDEN: the place of the byte that no text may hold */
} lis_record;

/* Reads a header, and the delimiters that it declares. Else the first of LIS_STATUS_NO_RECORD, LIS_STATUS_BAD_LETTER,
 * LIS_STATUS_BAD_DELIMITERS, LIS_STATUS_FORBIDDEN (with the place) and LIS_STATUS_TOO_LONG: then the delimiters stay as
 * they were. `out` is always written. */
lis_status lis_header_read(const uint8_t *text, size_t text_len, lis_delimiters *delimiters, lis_record *out);
/* Reads any other record under the delimiters of its message. It fails as lis_header_read does. */
lis_status lis_record_read(const lis_delimiters *delimiters, const uint8_t *text, size_t text_len, lis_record *out);
/* Copies a component of a header, its escapes as the bytes that they mean, to the front of `out`; `size` is its length.
 * Fields are counted as the standard does: the first after a header's delimiters is 3, the first after the letter of
 * another record is 2. Repeats and components are counted from 0. LIS_STATUS_ABSENT if there is no such component;
 * LIS_STATUS_TOO_SHORT (then what is in `out` is of no use; a buffer as long as the text is never too short); else as
 * lis_header_read. `size` is always written, as 0 if it fails. Each call reads the record from its beginning. */
lis_status lis_header_part(const uint8_t *text, size_t text_len, size_t field, size_t repeat, size_t component,
                           uint8_t *out, size_t out_len, size_t *size);
/* The same of any other record, under the delimiters of its message. */
lis_status lis_record_part(const lis_delimiters *delimiters, const uint8_t *text, size_t text_len, size_t field,
                           size_t repeat, size_t component, uint8_t *out, size_t out_len, size_t *size);

/* One component of a record: where its bytes are in the record's text, and which it is. */
typedef struct lis_part {
    uint32_t offset;       /* the place of its first byte in the text */
    uint32_t len;          /* how many bytes it has */
    uint32_t field;        /* its field, counted as by lis_record_part */
    uint32_t repeat;       /* its repeat, from 0 */
    uint32_t component;    /* which component of the repeat it is, from 0 */
    uint32_t flags;        /* LIS_PART_ESCAPED or 0: the other bits are 0 */
} lis_part;

/* The flags of a part. */
enum lis_part_flag {
    LIS_PART_ESCAPED = 1    /* the escape byte is among its bytes: lis_part_decode says what they mean */
};

/* Puts all components of a header to the front of `out`, in the text's order, in one pass over the text; `count` is how
 * many there are, and is always written. LIS_STATUS_TOO_SHORT: then as many are written as `out` has room for (one as
 * long as the text is never too short). Else as lis_header_read: then `count` is 0, and `out` as it was. What is past
 * `count` in `out` stays as it was. */
lis_status lis_header_parts(const uint8_t *text, size_t text_len, lis_part *out, size_t out_len, size_t *count);
/* The same of any other record, under the delimiters of its message. */
lis_status lis_record_parts(const lis_delimiters *delimiters, const uint8_t *text, size_t text_len, lis_part *out,
                            size_t out_len, size_t *count);
/* Copies the bytes that one component means, its escapes decoded, to the front of `out`; `size` is how many they are.
 * LIS_STATUS_TOO_SHORT (then what is in `out` is of no use; a buffer as long as the component is never too short);
 * LIS_STATUS_BAD_DELIMITERS. `size` is always written, as 0 if it fails. */
lis_status lis_part_decode(const lis_delimiters *delimiters, const uint8_t *part, size_t part_len, uint8_t *out,
                           size_t out_len, size_t *size);

/* ---- Reader: the records of a stream that comes in pieces, each where the message may have it. ---- */

/* What a reader found. */
LIS_ENUM(lis_found_kind) {
    LIS_FOUND_NOTHING = 0,      /* Nothing yet. */
    LIS_FOUND_RECORD = 1,       /* A record. */
    LIS_FOUND_REFUSED = 2       /* A record that can't be read, for a lis_reason. */
} LIS_ENUM_END(lis_found_kind);

/* Why a record can't be read. */
LIS_ENUM(lis_reason) {
    LIS_REASON_NONE = 0,            /* It can be read. */
    LIS_REASON_BAD_RECORD = 1,      /* Its text is no record; detail: a lis_status; place: the forbidden byte's. */
    LIS_REASON_NOT_HEADER = 2,      /* Outside a message a header comes first. */
    LIS_REASON_NO_PARENT = 3,       /* It has no parent in the message; detail: its letter. */
    LIS_REASON_SECOND_HEADER = 4,   /* The message already has its header. */
    LIS_REASON_UNFINISHED = 5,      /* The stream ended before the message or the record did. */
    LIS_REASON_TOO_LONG = 6,        /* It has over LIS_LIMIT_RECORD_BYTES. */
    LIS_REASON_OUT_OF_MEMORY = 7    /* There was no memory for bytes that are held. */
} LIS_ENUM_END(lis_reason);

/* What a reader found: a record, or one that can't be read. Members that do not apply to its kind are 0. */
typedef struct lis_found {
    lis_found_kind kind;    /* what it is */
    uint8_t letter;         /* of a record: its letter in upper case */
    lis_reason reason;      /* of one that can't be read: why */
    uint8_t detail;         /* as the reason says */
    size_t fields;          /* of a record: how many fields it has */
    size_t place;           /* as the reason says */
    uint64_t number;        /* of one that can't be read: its number in its message, 1 for a header */
} lis_found;

/* A handle of a reader. */
typedef struct lis_reader {
    void *at;    /* its block */
} lis_reader;

/* How many bytes the block of a reader has. */
size_t lis_reader_size(void);
/* The alignment that this block needs, in bytes. */
size_t lis_reader_align(void);
/* Makes a new reader in the block, at the beginning of a stream. */
void lis_reader_init(void *at);
/* Gives the reader's memory back; the block is the caller's again. */
void lis_reader_end(lis_reader s);
/* Reads the bytes before the first CR, or the CR if it comes first, which ends a record; returns how many bytes it
 * read. So a whole record takes two calls: one for its bytes, which finds nothing, and one for its CR. `out` is always
 * written. After LIS_FOUND_NOTHING the reader holds the bytes that were read, those of one record at most. After
 * LIS_FOUND_RECORD the record's text and parts can be read until the next call. After LIS_FOUND_REFUSED none of these
 * bytes count as read: the reader gives that fault until lis_reader_resume. To read another stream, call _end and
 * _init. */
size_t lis_reader_read(lis_reader *s, const uint8_t *bytes, size_t bytes_len, lis_found *out);
/* Copies a component of the record that was found last, as lis_record_part does; LIS_STATUS_NO_RECORD if none was. Each
 * call reads the record from its beginning: lis_reader_parts gives all components in one pass. */
lis_status lis_reader_part(const lis_reader *s, size_t field, size_t repeat, size_t component, uint8_t *out,
                           size_t out_len, size_t *size);
/* The parts of a record that was read. */
typedef struct lis_table {
    size_t count;                 /* how many they are */
    size_t len;                   /* how many bytes the record's text has */
    lis_delimiters delimiters;    /* the delimiters that it was read under */
} lis_table;

/* Puts all components of the record that lis_reader_read found last to the front of `out`, as lis_record_parts does, in
 * one pass; they are in the text that lis_reader_text copies. LIS_STATUS_TOO_SHORT: then as many are written as `out`
 * has room for (`table->count` is how many there are; an array as long as the text is never too short).
 * LIS_STATUS_NO_RECORD if none was found last: then all of `table` is 0. `table` is always written; what is past them
 * in `out` stays as it was. */
lis_status lis_reader_parts(const lis_reader *s, lis_part *out, size_t out_len, lis_table *table);
/* Copies the text of that record, without its CR, to the front of `out`; `size` is its length. LIS_STATUS_NO_RECORD as
 * above. LIS_STATUS_TOO_SHORT: then nothing is copied (a buffer of `table->len` or LIS_LIMIT_RECORD_BYTES is never too
 * short). `size` is always written, as 0 if it fails. */
lis_status lis_reader_text(const lis_reader *s, uint8_t *out, size_t out_len, size_t *size);

/* Reads the next record if it is whole in the bytes, with its CR, and puts all its parts to the front of `parts`, as
 * lis_record_parts does; returns how many bytes it read. The record's text is those bytes without the CR, and the
 * offsets of its parts are in it: nothing is copied, held or allocated. If `table->count` is over `parts_len`, the rest
 * did not fit; an array as long as the text is never too short.
 *
 * It returns 0 if no CR is among the bytes (call it again with the same bytes and more after them), if the record can't
 * come next (lis_reader_read says why), after a fault, and if lis_reader_read holds bytes or found a record last. Then
 * all of `out` and `table` is 0, and the reader and `parts` are as they were. */
size_t lis_reader_next(lis_reader *s, const uint8_t *bytes, size_t bytes_len, lis_found *out, lis_part *parts,
                       size_t parts_len, lis_table *table);

/* A record of a piece of a stream. */
typedef struct lis_entry {
    size_t offset;      /* where its text begins in the piece */
    size_t part;        /* its first part in the array of parts */
    size_t fields;      /* how many fields it has */
    lis_table table;    /* its parts, as by lis_reader_next */
    uint8_t letter;     /* its letter in upper case */
} lis_entry;

/* Reads records by lis_reader_next as long as one is whole in the bytes and both arrays have room for it; `count` is
 * how many records they are. Returns how many bytes it read: give those that are left again, with more after them. If
 * it returns 0 though it had room for an entry and for as many parts as there are bytes, and though a CR is among the
 * bytes or they are LIS_LIMIT_RECORD_BYTES + 1, the next record can't come: lis_reader_read says why. Plain C, in
 * src/c/pieces.c. */
size_t lis_reader_records(lis_reader *s, const uint8_t *bytes, size_t bytes_len, lis_entry *entries,
                          size_t entries_len, lis_part *parts, size_t parts_len, size_t *count);
/* Which component of each record a column has, counted as by lis_record_part. */
typedef struct lis_column {
    uint32_t field;        /* its field */
    uint32_t repeat;       /* its repeat, from 0 */
    uint32_t component;    /* which component of the repeat it is, from 0 */
} lis_column;

/* Reads records by lis_reader_next as lis_reader_records does, and copies these components of each one of a letter, in
 * upper case, to the front of `out`: row by row, each with a CR after it. They are as in the record, where no CR is.
 * Before one that has escapes are the byte 127 and the four delimiters of its message, for lis_part_decode; in place of
 * one that isn't there is the byte 255: no record has these two bytes. `size` is how many bytes were written, `count`
 * how many rows. It reads on as long as `out` has room for one more. `parts` is room to work in: LIS_LIMIT_RECORD_BYTES
 * of them are never too few, nor are as many bytes of `out` for each column, and 6 more. Returns how many bytes it
 * read; of 0 the same is to be said as of lis_reader_records. Plain C, in src/c/pieces.c. */
size_t lis_reader_columns(lis_reader *s, const uint8_t *bytes, size_t bytes_len, uint8_t letter,
                          const lis_column *columns, size_t columns_len, lis_part *parts, size_t parts_len,
                          uint8_t *out, size_t out_len, size_t *size, size_t *count);
/* The end of the stream: LIS_STATUS_OK, or LIS_STATUS_UNFINISHED and `out` has the reason. `out` is always written, and
 * the reader stays as it is. */
lis_status lis_reader_finish(const lis_reader *s, lis_found *out);
/* After LIS_FOUND_REFUSED: makes the reader as after _init, so that it reads on at a header. The message that was open
 * is dropped: it has no end. So a session that broke off costs its own message alone. True if the record that can't be
 * read is that header (LIS_REASON_SECOND_HEADER): give it again, from its first byte. Else go on at the next one, which
 * lis_header_find finds. Without a fault the reader starts again too. */
bool lis_reader_resume(lis_reader *s);
/* Where the next header begins among bytes: how many come before it, or all if none does. `*begins` is whether a record
 * begins with the first byte, and is then whether one begins after the last one, for the next piece of a stream. What
 * begins with H or h is a header here, whatever follows. Plain C, in src/c/pieces.c. */
size_t lis_header_find(const uint8_t *bytes, size_t bytes_len, bool *begins);

/* ---- A message as places in its text: no handle, no copy, no memory but the array. ---- */

/* Where a record of a message is, and the record that it is under: a result's is its order, an order's its patient, a
 * comment's the record before it that is no comment, manufacturer's or scientific record. */
typedef struct lis_record_place {
    size_t start;      /* where it begins in the text */
    size_t parent;     /* the place in the array of the record that it is under; 0, the header's, is its own */
    uint32_t len;      /* how many bytes it has, without its CR */
    uint8_t letter;    /* its letter in upper case */
} lis_record_place;

/* The message that a text begins with. */
typedef struct lis_message {
    size_t count;                 /* how many records it has */
    size_t len;                   /* how many bytes they have, each with its CR: the next message begins there */
    lis_delimiters delimiters;    /* the delimiters that they are read under */
} lis_message;

/* Puts the places of the records of the message that a text begins with to the front of `out`, in their order. Give a
 * record's bytes to lis_header_part or lis_record_part, or to lis_header_parts or lis_record_parts for all of them.
 *
 * LIS_STATUS_TOO_SHORT: then as many are written as `out` has room for (`message->count` is how many there are; an
 * array of half as many as the text has bytes is never too short). LIS_STATUS_NO_RECORD if the text is empty.
 * LIS_STATUS_UNFINISHED if it doesn't begin with a whole message: `found` has why, with the number of the record, and
 * the records before that one are written; lis_header_find, with `*begins` false, finds where to go on. `message` and
 * `found` are always written, as 0 where there is no message or no fault; what is past the records in `out` stays as it
 * was. */
lis_status lis_message_places(const uint8_t *text, size_t text_len, lis_record_place *out, size_t out_len,
                              lis_message *message, lis_found *found);

/* ---- Writer: records by their fields in, link texts out. Delimiters in a field's bytes are escaped. ---- */

/* A handle of a writer. */
typedef struct lis_writer {
    void *at;    /* its block */
} lis_writer;

/* How many bytes the block of a writer has. */
size_t lis_writer_size(void);
/* The alignment that this block needs, in bytes. */
size_t lis_writer_align(void);
/* Makes a new writer in the block: outside a message, with the usual delimiters. */
void lis_writer_init(void *at);
/* Gives the writer's memory back; the block is the caller's again. */
void lis_writer_end(lis_writer s);
/* Drops all that was written, and begins with these delimiters. LIS_STATUS_BAD_DELIMITERS: then nothing has changed. */
lis_status lis_writer_start(lis_writer *s, const lis_delimiters *delimiters);
/* Begins a record by the letter of its kind. LIS_STATUS_BAD_LETTER: then nothing has changed. A record that was begun
 * and not put is dropped. The first field of 'H' is field 3, since its delimiters are written for you; that of any
 * other record is field 2. */
lis_status lis_writer_record(lis_writer *s, uint8_t letter);
/* Writes a component of the record's next field that another one of the same repeat follows. LIS_STATUS_NO_RECORD if no
 * record is begun; LIS_STATUS_OUT_OF_MEMORY: then the record is dropped, and you begin it again. */
lis_status lis_writer_component(lis_writer *s, const uint8_t *bytes, size_t bytes_len);
/* Writes the last component of a repeat that another repeat of the field follows. It fails as lis_writer_component
 * does. */
lis_status lis_writer_repeat(lis_writer *s, const uint8_t *bytes, size_t bytes_len);
/* Writes the last component of the field, for most fields the only one, and so ends it. It fails as
 * lis_writer_component does. */
lis_status lis_writer_field(lis_writer *s, const uint8_t *bytes, size_t bytes_len);
/* Puts the record's text after the others; after a closing record the next message begins. Else nothing has changed:
 * LIS_STATUS_NO_RECORD, LIS_STATUS_UNFINISHED, LIS_STATUS_PUT_NOT_HEADER, LIS_STATUS_PUT_SECOND_HEADER,
 * LIS_STATUS_PUT_NO_PARENT, LIS_STATUS_FORBIDDEN, LIS_STATUS_TOO_LONG, LIS_STATUS_FULL or LIS_STATUS_OUT_OF_MEMORY.
 * `field` is always written: with LIS_STATUS_FORBIDDEN the number of the first field at fault, else 0. */
lis_status lis_writer_put(lis_writer *s, size_t *field);
/* How many texts there are: one for each record that was put. */
size_t lis_writer_texts(const lis_writer *s);
/* How many bytes a text has with its CR, by its place from 0; 0 if there are not so many texts. */
size_t lis_writer_text_len(const lis_writer *s, size_t place);
/* Copies a text, by its place from 0, to the front of `out`; `size` is its length. LIS_STATUS_ABSENT if there are not
 * so many; LIS_STATUS_TOO_SHORT, which a buffer of lis_writer_text_len or of LIS_LIMIT_RECORD_BYTES + 1 bytes never is.
 * `size` is always written, as 0 if it fails. */
lis_status lis_writer_text(const lis_writer *s, size_t place, uint8_t *out, size_t out_len, size_t *size);

#undef lis_status
#ifdef __clang__
#pragma clang diagnostic pop
#endif
/* ---- Words, for logs: plain C (src/c/names.c), tested and not proved. ---- */

/* The release of the library, in the form of LIS_VERSION, which is that of the header. */
const char *lis_version(void);
/* A few English words for a constant of this family; "unknown" for any other number. So do the calls below. */
const char *lis_status_text(lis_status status);
/* Words for what a signal is. */
const char *lis_signal_text(lis_signal_kind kind);
/* Words for what is wrong with a frame. */
const char *lis_fault_text(lis_fault fault);
/* Words for what a sender waits for. */
const char *lis_phase_text(lis_phase phase);
/* Words for how a session ended. */
const char *lis_outcome_text(lis_outcome outcome);
/* Words for what a byte or the timer meant. */
const char *lis_note_text(lis_note note);
/* Words for how ENQ is answered. */
const char *lis_ready_text(lis_ready readiness);
/* Words for which side a station is. */
const char *lis_role_text(lis_role role);
/* Words for what a reader found. */
const char *lis_found_text(lis_found_kind kind);
/* Words for why a record can't be read. */
const char *lis_reason_text(lis_reason reason);

/* ---- The heap, which the program has to bring: liblislink has src/c/heap.c, over malloc and free. Compiled with
 * -DLIS_NO_MALLOC it has only what was lent. ---- */

/* What was tried for a block. */
typedef struct rattle_tried {
    bool ok;       /* whether there is memory */
    uint8_t *p;    /* the block; any pointer but null if there is none */
} rattle_tried;

/* These may be called by each thread that calls the library, also by two at once: handles of their own share the heap.
 * The shared library always uses its own, over malloc. */
/* A block of `size` bytes, which may be 0, at a multiple of `align`, which is 1, 2, 4, 8 or 16. */
rattle_tried rattle_alloc(size_t size, size_t align);
/* A block of `size` bytes with the first `kept` bytes of this one, which is given up. If there is no memory, this one
 * stays as it was. */
rattle_tried rattle_realloc(uint8_t *p, size_t kept, size_t size, size_t align);
/* Gives a block back. */
void rattle_dealloc(uint8_t *p);

#ifdef __cplusplus
}
#endif
#undef LIS_ENUM
#undef LIS_ENUM_END
#undef LIS_LOOKED_AT
#endif
