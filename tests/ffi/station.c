/* Stations: each call at values of LIS01-A2 (6.2 to 6.5), one against another with both limits, each call that is
 * rejected, no bytes at a null pointer, and no memory. Prints how many things were compared. */
#include "lislink.h"
#include "../../examples/c/refusing_heap.h"
#include <stdio.h>
#include <stdlib.h>
#include <string.h>

enum { ENQ = 5, ACK = 6, NAK = 21, EOT = 4, MOST = LIS_LIMIT_LONG_FRAME_TEXT };

static int compared;
static uint8_t text[MOST], copy[MOST + 7];
static lis_answer answer;
static lis_bytes out;
static lis_place fault;
static size_t size;

static void same(unsigned long long found, unsigned long long wanted, int at) {
    compared++;
    if (found != wanted) {
        fprintf(stderr, "line %d: %llu, wanted %llu\n", at, found, wanted);
        exit(1);
    }
}
#define SAME(found, wanted) same((found), (wanted), __LINE__)

static lis_station begun(lis_role role, size_t limit) {
    lis_station station = {malloc(lis_station_size())};
    SAME((uintptr_t)station.at % lis_station_align(), 0);
    lis_station_init(station.at);
    SAME(lis_station_begin(&station, role, limit), LIS_STATUS_OK);
    return station;
}

static void end(lis_station *station) {
    lis_station_end(*station);
    free(station->at);
}

static void add(lis_station *station, const char *words) {
    SAME(lis_station_add_text(station, (const uint8_t *)words, strlen(words)), LIS_STATUS_OK);
}

/* What an answer to a byte sends, if it is one byte; 0 for nothing. */
static unsigned to(lis_station *station, uint8_t byte) {
    lis_station_byte(station, byte, &answer);
    SAME(answer.send.len <= 1 || !answer.is_step, true);
    return answer.send.len == 0 ? 0 : answer.send.bytes[0];
}

/* The seconds of the timer that runs, 99 if none does. */
static unsigned seconds_of(lis_station *station) {
    uint32_t seconds = 7;
    bool runs = lis_station_timer_seconds(station, &seconds);
    SAME(runs || seconds == 0, true);
    return runs ? seconds : 99;
}

/* Which texts a session takes, and the place of the first byte that makes one none. */
static void of_texts(void) {
    static uint8_t longest[LIS_LIMIT_TEXT_BYTES + 1];
    memset(longest, 'x', sizeof longest);
    SAME(lis_text_check(longest, LIS_LIMIT_TEXT_BYTES, &fault.place), LIS_STATUS_OK);
    SAME(fault.place, 0);
    longest[LIS_LIMIT_TEXT_BYTES - 1] = longest[LIS_LIMIT_TEXT_BYTES] = '\n';
    SAME(lis_text_check(longest, LIS_LIMIT_TEXT_BYTES, &fault.place), LIS_STATUS_FORBIDDEN);
    SAME(fault.place, LIS_LIMIT_TEXT_BYTES - 1);
    SAME(lis_text_check(longest, LIS_LIMIT_TEXT_BYTES + 1, &fault.place), LIS_STATUS_TOO_LONG);
    SAME(fault.place, 0);
}

static void of_starts(void) {
    lis_station station = begun(LIS_ROLE_ANALYZER, LIS_LIMIT_FRAME_TEXT);
    SAME(lis_station_start(&station, &out, &fault), LIS_STATUS_NO_TEXT);
    add(&station, "ok");
    SAME(lis_station_add_text(&station, (const uint8_t *)"bad\n", 4), LIS_STATUS_FORBIDDEN);
    lis_station_clear(&station);
    SAME(lis_station_start(&station, &out, &fault), LIS_STATUS_NO_TEXT);
    add(&station, "a");
    SAME(to(&station, ENQ), ACK);
    SAME(lis_station_is_open(&station) && seconds_of(&station) == 30, true);
    SAME(lis_station_start(&station, &out, &fault), LIS_STATUS_LINE_OPEN);
    SAME(fault.index + fault.place, 0);
    SAME(to(&station, EOT), 0);
    SAME(seconds_of(&station), 99);
    SAME(lis_station_start(&station, &out, &fault), LIS_STATUS_OK);
    SAME(out.len == 1 && out.bytes[0] == ENQ, true);
    SAME(lis_station_awaits_reply(&station) && seconds_of(&station) == 15, true);
    add(&station, "later");
    SAME(lis_station_start(&station, &out, &fault), LIS_STATUS_IN_SESSION);
    SAME(to(&station, NAK), 0);
    SAME(!answer.is_step && lis_station_phase(&station) == LIS_PHASE_BUSY && seconds_of(&station) == 10, true);
    lis_station_give_up(&station);
    SAME(lis_station_outcome(&station), LIS_OUTCOME_RESTARTED);
    SAME(lis_station_start(&station, &out, &fault), LIS_STATUS_OK);   /* with what was added meanwhile */
    lis_station_timer(&station, &answer);
    SAME(!answer.is_step && answer.send.len == 1 && answer.send.bytes[0] == EOT, true);
    SAME(lis_station_outcome(&station), LIS_OUTCOME_TIMED_OUT);
    end(&station);
}

/* Both ask at once: the computer waits for the analyzer's session, and then asks at once. */
static void of_contention(void) {
    const size_t usual = LIS_LIMIT_FRAME_TEXT;
    lis_station its[] = {begun(LIS_ROLE_ANALYZER, usual), begun(LIS_ROLE_COMPUTER, usual)};
    for (int i = 0; i < 2; i++) {
        add(&its[i], "a");
        SAME(lis_station_start(&its[i], &out, &fault), LIS_STATUS_OK);
        SAME(to(&its[i], ENQ), 0);
        SAME(lis_station_phase(&its[i]), LIS_PHASE_CONTENTION);
        SAME(seconds_of(&its[i]), i == 0 ? 1 : 20);
        SAME(lis_station_turn_seconds(&its[i]), 15);
        SAME(lis_station_turn_asked(&its[i]), false);
    }
    SAME(to(&its[1], ENQ), ACK);
    SAME(answer.is_step && answer.step.note == LIS_NOTE_OPENED && answer.step.reply == ACK, true);
    SAME(to(&its[1], EOT), 0);
    SAME(seconds_of(&its[1]), 0);
    lis_station_timer(&its[1], &answer);
    SAME(answer.send.len == 1 && answer.send.bytes[0] == ENQ, true);
    lis_station_restart(&its[1]);
    SAME(lis_station_outcome(&its[1]), LIS_OUTCOME_RESTARTED);
    SAME(lis_station_turn_seconds(&its[1]), 0);
    end(&its[0]);
    end(&its[1]);
}

/* EOT in reply to a frame: the frame comes again, and the other side waits for its turn. */
static void of_turns(void) {
    static const uint8_t frame[] = "\0021a\00395\r\n";
    lis_station station = begun(LIS_ROLE_ANALYZER, LIS_LIMIT_FRAME_TEXT);
    add(&station, "a");
    SAME(lis_station_start(&station, &out, &fault), LIS_STATUS_OK);
    SAME(to(&station, ACK), 2);
    SAME(answer.send.len == sizeof frame - 1 && memcmp(answer.send.bytes, frame, sizeof frame - 1) == 0, true);
    SAME(to(&station, EOT), 2);
    SAME(lis_station_turn_asked(&station) && lis_station_turn_seconds(&station) == 15, true);
    SAME(to(&station, ACK), EOT);
    SAME(lis_station_outcome(&station) == LIS_OUTCOME_DONE && lis_station_acknowledged(&station) == 1, true);
    lis_station_set_ready(&station, false);
    SAME(to(&station, ENQ), NAK);
    lis_station_set_ready(&station, true);
    SAME(to(&station, ENQ), ACK);
    lis_station_ask_turn(&station);
    SAME(lis_station_hear(&station, frame, sizeof frame - 1, &answer), sizeof frame - 1);
    SAME(answer.send.len == 1 && answer.send.bytes[0] == EOT && answer.step.note == LIS_NOTE_ACCEPTED, true);
    SAME(answer.step.has_text && lis_station_text_len(&station) == 1, true);
    SAME(lis_station_text(&station, copy, 1) == LIS_STATUS_OK && copy[0] == 'a', true);
    SAME(lis_station_text(&station, copy, 0), LIS_STATUS_TOO_SHORT);
    SAME(lis_station_hear(&station, frame, sizeof frame - 1, &answer), sizeof frame - 1);
    SAME(answer.send.bytes[0] == ACK && answer.step.note == LIS_NOTE_DUPLICATE, true);
    SAME(lis_station_accepted(&station), 1);
    lis_station_close_line(&station);
    SAME(lis_station_is_open(&station), false);
    SAME(lis_station_text_len(&station), 1);
    lis_station_timer(&station, &answer);
    SAME(answer.is_step || answer.send.len > 0, false);
    end(&station);
}

/* Carries a session that was started from one to another; how many frames are acknowledged. */
static unsigned long long sends_all(lis_station *from, lis_station *there) {
    lis_answer reply;
    while (lis_station_phase(from) != LIS_PHASE_NEUTRAL) {
        bool is_long = answer.send.len == 0;
        if (is_long)
            SAME(lis_station_frame(from, copy, sizeof copy, &size), LIS_STATUS_OK);
        size_t count = is_long ? size : answer.send.len;
        SAME(lis_station_hear(there, is_long ? copy : answer.send.bytes, count, &reply), count);
        SAME(reply.send.len, 1);
        lis_station_byte(from, reply.send.bytes[0], &answer);
    }
    SAME(lis_station_outcome(from), LIS_OUTCOME_DONE);
    SAME(lis_station_hear(there, answer.send.bytes, answer.send.len, &reply), 1);
    SAME(reply.step.note, LIS_NOTE_ENDED);
    return lis_station_acknowledged(from);
}

/* Sends a text of so many bytes from one to another; how many frames are acknowledged. */
static unsigned long long carried(lis_station *from, lis_station *there, size_t len) {
    memset(text, 'x', len);
    SAME(lis_station_add_text(from, text, len), LIS_STATUS_OK);
    SAME(lis_station_start(from, &answer.send, &fault), LIS_STATUS_OK);
    unsigned long long frames = sends_all(from, there);
    SAME(lis_station_text_len(there), len);
    SAME(lis_station_text(there, copy, len) == LIS_STATUS_OK && memcmp(copy, text, len) == 0, true);
    return frames;
}

/* Texts that stay with the caller: the same session without the heap. */
static void of_lent(size_t limit) {
    static const lis_text texts[] = {{(const uint8_t *)"ok", 2}, {NULL, 0}, {text, MOST}};
    static const lis_text bad[] = {{text, 1}, {(const uint8_t *)"a\n", 2}};
    static lis_text many[LIS_LIMIT_TEXTS + 1];
    lis_station station = begun(LIS_ROLE_ANALYZER, limit), other = begun(LIS_ROLE_COMPUTER, limit);
    memset(text, 'x', MOST);
    add(&station, "later");
    fault.index = fault.place = 9;
    SAME(lis_station_start_lent(&station, many, LIS_LIMIT_TEXTS + 1, &out, &fault), LIS_STATUS_FULL);
    SAME(fault.index + fault.place, 0);
    SAME(lis_station_start_lent(&station, NULL, 0, &out, &fault), LIS_STATUS_NO_TEXT);
    SAME(lis_station_start_lent(&station, bad, 2, &out, &fault), LIS_STATUS_FORBIDDEN);
    SAME(fault.index * 10 + fault.place, 11);
    size_t before = calls;
    SAME(lis_station_start_lent(&station, texts, 3, &out, &fault), LIS_STATUS_OK);
    SAME(out.len == 1 && out.bytes[0] == ENQ && fault.index + fault.place == 0, true);
    SAME(lis_station_start_lent(&station, texts, 1, &out, &fault), LIS_STATUS_IN_SESSION);
    lis_station_restart(&station);
    SAME(lis_station_start_lent(&station, many, LIS_LIMIT_TEXTS, &out, &fault), LIS_STATUS_OK);
    lis_station_restart(&station);
    SAME(to(&station, ENQ), ACK);
    SAME(lis_station_start_lent(&station, texts, 3, &out, &fault), LIS_STATUS_LINE_OPEN);
    SAME(to(&station, EOT), 0);
    SAME(lis_station_start_lent(&station, texts, 3, &out, &fault), LIS_STATUS_OK);
    SAME(calls - before, 0);
    answer.send = out;
    SAME(sends_all(&station, &other), 2 + (limit == MOST ? 1 : 267));
    SAME(lis_station_text_len(&other), MOST);
    SAME(lis_station_start(&station, &answer.send, &fault), LIS_STATUS_OK);
    SAME(sends_all(&station, &other), 1);
    SAME(lis_station_text(&other, copy, 5) == LIS_STATUS_OK && memcmp(copy, "later", 5) == 0, true);
    end(&station);
    end(&other);
}

/* Each way in turn, with both limits. */
static void of_both_ways(void) {
    static const size_t limits[] = {LIS_LIMIT_FRAME_TEXT, LIS_LIMIT_LONG_FRAME_TEXT};
    for (int i = 0; i < 2; i++) {
        lis_station analyzer = begun(LIS_ROLE_ANALYZER, limits[i]), computer = begun(LIS_ROLE_COMPUTER, limits[i]);
        SAME(carried(&analyzer, &computer, 500), i == 0 ? 3 : 1);
        SAME(carried(&computer, &analyzer, MOST), i == 0 ? 267 : 1);
        SAME(carried(&analyzer, &computer, 3), 1);
        end(&analyzer);
        end(&computer);
    }
}

static void of_refusals(void) {
    lis_station station = begun(LIS_ROLE_ANALYZER, LIS_LIMIT_FRAME_TEXT);
    static const uint8_t frame[] = "\0021a\00395\r\n";
    SAME(lis_station_begin(&station, (lis_role)2, LIS_LIMIT_FRAME_TEXT), LIS_STATUS_BAD_NUMBER);
    SAME(lis_station_begin(&station, LIS_ROLE_COMPUTER, 241), LIS_STATUS_BAD_NUMBER);
    refused_at = calls + 1;
    SAME(lis_station_begin(&station, LIS_ROLE_COMPUTER, LIS_LIMIT_LONG_FRAME_TEXT), LIS_STATUS_OUT_OF_MEMORY);
    refused_at = calls + 1;
    SAME(lis_station_add_text(&station, frame, 1), LIS_STATUS_FORBIDDEN);    /* which takes no memory */
    SAME(lis_station_add_text(&station, frame + 1, 1), LIS_STATUS_OUT_OF_MEMORY);
    SAME(lis_station_reserve(&station, LIS_LIMIT_TEXT_BYTES + 1), LIS_STATUS_TOO_LONG);
    refused_at = calls + 1;
    SAME(lis_station_reserve(&station, 100), LIS_STATUS_OUT_OF_MEMORY);
    SAME(to(&station, ENQ), ACK);
    refused_at = calls + 1;
    SAME(lis_station_hear(&station, frame, sizeof frame - 1, &answer), sizeof frame - 1);
    SAME(answer.send.bytes[0] == NAK && answer.step.note == LIS_NOTE_OUT_OF_MEMORY, true);
    SAME(lis_station_hear(&station, frame, sizeof frame - 3, &answer), sizeof frame - 3);
    SAME(answer.is_step && answer.step.note == LIS_NOTE_QUIET && answer.send.len == 0, true);
    SAME(lis_station_hear(&station, frame + sizeof frame - 3, 2, &answer), 2);
    SAME(answer.send.bytes[0] == ACK && answer.step.has_text, true);
    SAME(lis_station_hear(&station, frame, 3, &answer), 3);
    SAME(lis_station_held(&station), 0);
    end(&station);
}

/* A null pointer with the length 0 is no bytes. */
static void of_null(void) {
    lis_station station = begun(LIS_ROLE_COMPUTER, LIS_LIMIT_LONG_FRAME_TEXT);
    SAME(lis_station_hear(&station, NULL, 0, &answer), 0);
    SAME(answer.is_step && answer.step.note == LIS_NOTE_QUIET && answer.send.len == 0, true);
    SAME(lis_station_text(&station, NULL, 0), LIS_STATUS_OK);
    SAME(lis_station_frame(&station, NULL, 0, &size), LIS_STATUS_ABSENT);
    SAME(lis_station_add_text(&station, NULL, 0), LIS_STATUS_OK);
    SAME(lis_station_start(&station, &out, &fault), LIS_STATUS_OK);
    SAME(lis_station_hear(&station, NULL, 0, &answer), 0);
    SAME(to(&station, ACK), 2);
    SAME(lis_station_frame(&station, NULL, 0, &size), LIS_STATUS_TOO_SHORT);
    end(&station);
}

int main(void) {
    of_texts();
    of_starts();
    of_contention();
    of_turns();
    of_both_ways();
    of_lent(LIS_LIMIT_FRAME_TEXT);
    of_lent(LIS_LIMIT_LONG_FRAME_TEXT);
    of_refusals();
    of_null();
    SAME(live, 0);
    printf("%d compared\n", compared);
    return 0;
}
