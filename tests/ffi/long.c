/* Frames whose texts have over 240 bytes: written, scanned whole and byte by byte, received and sent, with each limit,
 * each call that is rejected, and no memory for the long limit. Prints how many things were compared. */
#include "lislink.h"
#include "../../examples/c/refusing_heap.h"
#include <stdio.h>
#include <stdlib.h>
#include <string.h>

enum { MOST = LIS_LIMIT_LONG_FRAME_TEXT };

static int compared;
static uint8_t text[MOST + 1], copy[MOST + 8], frame[LIS_LIMIT_LONG_FRAME_BYTES + 1];
static size_t size, place;

static void same(unsigned long long found, unsigned long long wanted, int at) {
    compared++;
    if (found != wanted) {
        fprintf(stderr, "line %d: %llu, wanted %llu\n", at, found, wanted);
        exit(1);
    }
}
#define SAME(found, wanted) same((found), (wanted), __LINE__)

/* A text of so many bytes, none of them forbidden. */
static void make_text(size_t len) {
    for (size_t i = 0; i < len; i++)
        text[i] = (uint8_t)(' ' + i % 90);
}

static size_t written(uint8_t number, bool last, size_t len) {
    make_text(len);
    SAME(lis_long_frame_write(number, last, text, len, frame, sizeof frame, &size, &place), LIS_STATUS_OK);
    SAME(place, 0);
    SAME(size, len + 7);
    return size;
}

/* A long frame of up to 240 bytes is that of lis_frame_write, and one that is rejected leaves the buffer as it was. */
static void of_writing(void) {
    lis_bytes bytes;
    for (size_t len = 0; len <= LIS_LIMIT_FRAME_TEXT; len += 80) {
        written(3, true, len);
        SAME(lis_frame_write(3, true, text, len, &bytes, &place), LIS_STATUS_OK);
        SAME(bytes.len == size && memcmp(bytes.bytes, frame, size) == 0, true);
    }
    written(7, false, MOST);
    SAME(frame[0] == 2 && frame[1] == '7' && frame[MOST + 2] == 0x17 && frame[size - 1] == '\n', true);
    memset(frame, 0xA5, sizeof frame);
    SAME(lis_long_frame_write(1, true, text, MOST + 1, frame, sizeof frame, &size, &place), LIS_STATUS_TOO_LONG);
    SAME(lis_long_frame_write(8, true, text, 9, frame, sizeof frame, &size, &place), LIS_STATUS_BAD_NUMBER);
    SAME(lis_long_frame_write(1, true, text, 300, frame, 306, &size, &place), LIS_STATUS_TOO_SHORT);
    SAME(size == 0 && place == 0, true);
    text[250] = 4;
    SAME(lis_long_frame_write(8, true, text, 300, frame, sizeof frame, &size, &place), LIS_STATUS_FORBIDDEN);
    SAME(size == 0 && place == 250, true);
    for (size_t i = 0; i < sizeof frame; i++)
        if (frame[i] != 0xA5)
            SAME(i, sizeof frame);
    text[250] = 'a';
    SAME(lis_long_frame_write(1, true, text, 300, frame, 307, &size, &place), LIS_STATUS_OK);
    SAME(size == 307 && frame[307] == 0xA5, true);
}

/* What a scanner says of a frame that it read last. */
static void is_frame(lis_scanner *scanner, const lis_signal *signal, uint8_t number, bool last, size_t len) {
    bool is_long = len > LIS_LIMIT_FRAME_TEXT;
    SAME(signal->kind, is_long ? LIS_SIGNAL_LONG_FRAME : LIS_SIGNAL_FRAME);
    SAME(signal->number == number && signal->last == last && signal->fault == 0 && signal->place == 0, true);
    SAME(signal->len, is_long ? 0 : len);
    SAME(lis_scanner_text_len(scanner), is_long ? len : 0);
    if (!is_long) {
        SAME(memcmp(signal->text, text, len), 0);
        return;
    }
    copy[0] = 0xA5;
    SAME(lis_scanner_text(scanner, copy, len - 1), LIS_STATUS_TOO_SHORT);
    SAME(copy[0], 0xA5);
    copy[len] = 0xA5;
    SAME(lis_scanner_text(scanner, copy, sizeof copy), LIS_STATUS_OK);
    SAME(memcmp(copy, text, len), 0);
    SAME(copy[len], 0xA5);
}

/* Frames of these lengths, whole, byte by byte, and cut in two. */
static void scan(lis_scanner *scanner, size_t len) {
    lis_signal signal;
    size_t all = written(5, len % 2 == 0, len);
    SAME(lis_scanner_feed(scanner, frame, all, &signal), all);
    is_frame(scanner, &signal, 5, len % 2 == 0, len);
    for (size_t i = 0; i < all; i++)
        lis_scanner_push(scanner, frame[i], &signal);
    is_frame(scanner, &signal, 5, len % 2 == 0, len);
    SAME(lis_scanner_feed(scanner, frame, all / 2, &signal), all / 2);
    SAME(signal.kind, LIS_SIGNAL_NONE);
    SAME(lis_scanner_text_len(scanner), 0);
    SAME(lis_scanner_feed(scanner, frame + all / 2, all - all / 2, &signal), all - all / 2);
    is_frame(scanner, &signal, 5, len % 2 == 0, len);
    SAME(lis_scanner_feed(scanner, (const uint8_t *)"\005", 1, &signal), 1);
    SAME(signal.kind, LIS_SIGNAL_ENQ);
    SAME(lis_scanner_text_len(scanner), 0);
}

static void of_scanner(void) {
    static const size_t lengths[] = {0, 239, 240, 241, 4000, MOST - 1, MOST};
    lis_scanner scanner = {malloc(lis_scanner_size())};
    lis_signal signal;
    lis_scanner_init(scanner.at);
    SAME(lis_scanner_set_limit(&scanner, 241), LIS_STATUS_BAD_NUMBER);
    written(1, true, 241);
    SAME(lis_scanner_feed(&scanner, frame, size, &signal), size);
    SAME(signal.kind == LIS_SIGNAL_BAD_FRAME && signal.fault == LIS_FAULT_TOO_LONG, true);
    SAME(lis_scanner_feed(&scanner, frame, 9, &signal), 9);
    refused_at = calls + 1;
    SAME(lis_scanner_set_limit(&scanner, MOST), LIS_STATUS_OUT_OF_MEMORY);
    SAME(lis_scanner_feed(&scanner, (const uint8_t *)"\n", 1, &signal), 1);
    SAME(signal.kind == LIS_SIGNAL_BAD_FRAME && signal.fault == LIS_FAULT_SHAPE, true);    /* of the nine bytes */
    SAME(lis_scanner_set_limit(&scanner, MOST), LIS_STATUS_OK);
    for (size_t i = 0; i < sizeof lengths / sizeof *lengths; i++)
        scan(&scanner, lengths[i]);
    written(1, true, MOST);
    frame[size - 3] ^= 1;
    SAME(lis_scanner_feed(&scanner, frame, size, &signal), size);
    SAME(signal.kind == LIS_SIGNAL_BAD_FRAME && signal.fault == LIS_FAULT_SUM, true);
    SAME(lis_scanner_text_len(&scanner), 0);
    SAME(lis_scanner_set_limit(&scanner, LIS_LIMIT_FRAME_TEXT), LIS_STATUS_OK);
    written(1, true, 241);
    SAME(lis_scanner_feed(&scanner, frame, size, &signal), size);
    SAME(signal.kind, LIS_SIGNAL_BAD_FRAME);
    lis_scanner_end(scanner);
    free(scanner.at);
}

/* Hears a frame of the session's first number; answers the note. */
static lis_note hear(lis_receiver *receiver, size_t len, bool last) {
    lis_step step;
    SAME(lis_receiver_hear(receiver, (const uint8_t *)"\005", 1, &step), 1);
    SAME(step.reply, 6);
    written(1, last, len);
    SAME(lis_receiver_hear(receiver, frame, size, &step), size);
    SAME(step.has_text, last && step.note == LIS_NOTE_ACCEPTED);
    SAME(step.reply, step.note == LIS_NOTE_ACCEPTED ? 6 : 21);
    return step.note;
}

static void has_text(lis_receiver *receiver, size_t len) {
    SAME(lis_receiver_text_len(receiver), len);
    SAME(lis_receiver_text(receiver, copy, sizeof copy), LIS_STATUS_OK);
    SAME(memcmp(copy, text, len), 0);
}

static void of_receiver(void) {
    lis_receiver receiver = {malloc(lis_receiver_size())};
    lis_step step;
    lis_receiver_init(receiver.at);
    SAME(lis_receiver_set_limit(&receiver, MOST + 1), LIS_STATUS_BAD_NUMBER);
    SAME(hear(&receiver, 241, true), LIS_NOTE_REFUSED);
    SAME(hear(&receiver, 240, true), LIS_NOTE_ACCEPTED);
    refused_at = calls + 1;
    SAME(lis_receiver_set_limit(&receiver, MOST), LIS_STATUS_OUT_OF_MEMORY);
    SAME(lis_receiver_is_open(&receiver), true);
    has_text(&receiver, 240);
    SAME(lis_receiver_set_limit(&receiver, MOST), LIS_STATUS_OK);
    SAME(lis_receiver_is_open(&receiver), false);
    SAME(lis_receiver_text_len(&receiver), 0);
    SAME(hear(&receiver, 241, true), LIS_NOTE_ACCEPTED);
    has_text(&receiver, 241);
    SAME(hear(&receiver, MOST, true), LIS_NOTE_ACCEPTED);
    has_text(&receiver, MOST);
    SAME(lis_receiver_accepted(&receiver), 1);
    SAME(hear(&receiver, 1000, false), LIS_NOTE_ACCEPTED);
    SAME(lis_receiver_held(&receiver), 1000);
    lis_receiver_timer(&receiver, &step);
    SAME(step.note, LIS_NOTE_TIMED_OUT);
    SAME(lis_receiver_reserve(&receiver, 2 * MOST), LIS_STATUS_OK);
    SAME(lis_receiver_set_ready(&receiver, LIS_READY_BUSY), LIS_STATUS_OK);
    lis_receiver_byte(&receiver, 5, &step);
    SAME(step.reply, 21);
    lis_receiver_restart(&receiver);
    SAME(hear(&receiver, MOST, true), LIS_NOTE_ACCEPTED);
    lis_receiver_set_room(&receiver, false);
    SAME(hear(&receiver, MOST, true), LIS_NOTE_NO_ROOM);
    SAME(lis_receiver_set_limit(&receiver, LIS_LIMIT_FRAME_TEXT), LIS_STATUS_OK);
    SAME(hear(&receiver, 241, true), LIS_NOTE_REFUSED);
    SAME(hear(&receiver, 9, true), LIS_NOTE_ACCEPTED);
    lis_receiver_end(receiver);
    free(receiver.at);
}

/* The frame that awaits its reply, which a buffer that is too short leaves there. */
static void awaits(lis_sender *sender, size_t len) {
    memset(copy, 0xA5, sizeof copy);
    SAME(lis_sender_frame(sender, copy, size - 1, &place), LIS_STATUS_TOO_SHORT);
    SAME(place == 0 && copy[0] == 0xA5, true);
    SAME(lis_sender_frame(sender, copy, sizeof copy, &place), LIS_STATUS_OK);
    SAME(place, size);
    SAME(size, len + 7);
    SAME(memcmp(copy, frame, size) == 0 && copy[size] == 0xA5, true);
}

/* One text of so many bytes goes over, its first frame twice. */
static void send(lis_sender *sender, size_t len, size_t limit) {
    lis_bytes out;
    lis_place fault;
    make_text(len);
    SAME(lis_sender_add_text(sender, text, len), LIS_STATUS_OK);
    SAME(lis_sender_start(sender, &out, &fault), LIS_STATUS_OK);
    SAME(lis_sender_set_limit(sender, limit), LIS_STATUS_IN_SESSION);
    SAME(lis_sender_frame(sender, copy, sizeof copy, &place), LIS_STATUS_ABSENT);
    lis_sender_reply(sender, 6, &out);
    for (size_t at = 0, number = 1; at < len; at += limit, number++) {
        size_t piece = len - at < limit ? len - at : limit;
        SAME(lis_long_frame_write(number & 7, at + piece == len, text + at, piece, frame, sizeof frame, &size, &place),
             LIS_STATUS_OK);
        if (at == 0)
            lis_sender_reply(sender, 21, &out);
        SAME(out.len, size > sizeof out.bytes ? 0 : size);
        SAME(memcmp(out.bytes, frame, out.len), 0);
        awaits(sender, piece);
        lis_sender_reply(sender, 6, &out);
    }
    SAME(out.len == 1 && out.bytes[0] == 4, true);
    SAME(lis_sender_outcome(sender), LIS_OUTCOME_DONE);
    SAME(lis_sender_frame(sender, copy, sizeof copy, &place), LIS_STATUS_ABSENT);
    SAME(place, 0);
}

static void of_sender(void) {
    lis_sender sender = {malloc(lis_sender_size())};
    lis_bytes out;
    lis_place fault;
    lis_sender_init(sender.at);
    SAME(lis_sender_set_limit(&sender, 239), LIS_STATUS_BAD_NUMBER);
    send(&sender, 500, LIS_LIMIT_FRAME_TEXT);
    SAME(lis_sender_add_text(&sender, text, 300), LIS_STATUS_OK);
    SAME(lis_sender_set_limit(&sender, MOST), LIS_STATUS_OK);
    SAME(lis_sender_outcome(&sender), LIS_OUTCOME_NONE);
    SAME(lis_sender_start(&sender, &out, &fault), LIS_STATUS_OK);    /* the text is still there */
    lis_sender_restart(&sender);
    send(&sender, 240, MOST);
    send(&sender, 241, MOST);
    send(&sender, MOST, MOST);
    SAME(lis_sender_set_limit(&sender, LIS_LIMIT_FRAME_TEXT), LIS_STATUS_OK);
    send(&sender, 241, LIS_LIMIT_FRAME_TEXT);
    lis_sender_end(sender);
    free(sender.at);
}

int main(void) {
    of_writing();
    of_scanner();
    of_receiver();
    of_sender();
    SAME(live, 0);
    printf("%d compared\n", compared);
    return 0;
}
