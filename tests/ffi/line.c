/* The calls of src/c/connection.c: a reply of an earlier connection is dropped, and no session of a sender or a station
 * starts where a late reply could meet it; and the seconds of timers. Prints how many things were compared. */
#include "lislink.h"
#include <stdio.h>
#include <stdlib.h>
#include <string.h>

enum { EOT = 4, ENQ = 5, ACK = 6, NAK = 21 };

static int compared;
static lis_line line;
static lis_bytes out;
static lis_place fault;

static void same(long long found, long long wanted, int at) {
    compared++;
    if (found != wanted) {
        fprintf(stderr, "line %d: %lld, wanted %lld\n", at, found, wanted);
        exit(1);
    }
}
#define SAME(found, wanted) same((long long)(found), (long long)(wanted), __LINE__)

static void add(void) {
    SAME(lis_sender_add_text(&line.sender, (const uint8_t *)"L|1\r", 4), LIS_STATUS_OK);
}

/* Starts a session, which sends ENQ. */
static void starts(void) {
    add();
    SAME(lis_line_start(&line, &out, &fault), LIS_STATUS_OK);
    SAME(out.len, 1);
    SAME(out.bytes[0], ENQ);
}

/* No session starts, and its texts stay. */
static void starts_not(void) {
    static const lis_text texts[] = {{(const uint8_t *)"L|1\r", 4}};
    fault.index = fault.place = 9;
    SAME(lis_line_start(&line, &out, &fault), LIS_STATUS_OLD_LINE);
    SAME(fault.index + fault.place, 0);
    fault.index = fault.place = 9;
    SAME(lis_line_start_lent(&line, texts, 1, &out, &fault), LIS_STATUS_OLD_LINE);
    SAME(fault.index + fault.place, 0);
    SAME(lis_sender_phase(&line.sender), LIS_PHASE_NEUTRAL);
}

/* A byte of a connection is dropped: nothing is to be sent, and the phase is as before. */
static void drops(uint64_t connection, uint8_t byte) {
    lis_phase phase = lis_sender_phase(&line.sender);
    out.len = 9;
    lis_line_reply(&line, connection, byte, &out);
    SAME(out.len, 0);
    SAME(lis_sender_phase(&line.sender), phase);
}

/* A session of one frame, acknowledged to its end. */
static void is_done(uint64_t connection) {
    lis_line_reply(&line, connection, ACK, &out);
    SAME(out.len, 11);
    lis_line_reply(&line, connection, ACK, &out);
    SAME(out.len, 1);
    SAME(out.bytes[0], EOT);
    SAME(lis_sender_outcome(&line.sender), LIS_OUTCOME_DONE);
}

static void of_timeouts(void) {
    add();
    starts_not();                                   /* a new process: there is no connection yet */
    drops(0, ENQ);
    uint64_t first = lis_line_connected(&line);
    SAME(lis_line_start(&line, &out, &fault), LIS_STATUS_OK);
    is_done(first);
    lis_line_timer(&line, &out);                    /* no session goes on: the connection is as good as before */
    lis_line_restart(&line);
    starts();
    lis_line_timer(&line, &out);
    SAME(out.bytes[0], EOT);
    add();
    starts_not();                                   /* the ACK to the ENQ may still come */
    drops(first, ACK);
    drops(first, ENQ);
    uint64_t second = lis_line_connected(&line);
    SAME(second != first, 1);
    SAME(lis_line_start(&line, &out, &fault), LIS_STATUS_OK);
    drops(first, ACK);                              /* it came, over the old connection */
    is_done(second);
}

static void of_restarts(void) {
    static const lis_text texts[] = {{(const uint8_t *)"L|1\r", 4}};
    uint64_t first = lis_line_connected(&line);
    starts();
    lis_line_restart(&line);
    SAME(lis_sender_outcome(&line.sender), LIS_OUTCOME_RESTARTED);
    starts_not();
    first = lis_line_connected(&line);
    starts();
    uint64_t second = lis_line_connected(&line);    /* in mid-session: it is restarted */
    SAME(lis_sender_outcome(&line.sender), LIS_OUTCOME_RESTARTED);
    lis_line_timer(&line, &out);                    /* that session was of the old connection */
    lis_line_restart(&line);
    SAME(lis_line_start_lent(&line, texts, 1, &out, &fault), LIS_STATUS_OK);
    drops(first, ACK);
    lis_line_reply(&line, second, NAK, &out);
    SAME(lis_sender_phase(&line.sender), LIS_PHASE_BUSY);
    lis_line_timer(&line, &out);                    /* busy: the session goes on */
    SAME(out.bytes[0], ENQ);
    is_done(second);
}

/* Six tries are answered each: the connection may be used again. */
static void of_tries(void) {
    uint64_t first = lis_line_connected(&line);
    uint8_t frame[LIS_LIMIT_FRAME_BYTES];
    size_t size;
    starts();
    lis_line_reply(&line, first, ACK, &out);
    SAME(lis_line_frame(&line, first + 1, frame, sizeof frame, &size), LIS_STATUS_ABSENT);
    SAME(lis_line_frame(&line, first, frame, out.len - 1, &size), LIS_STATUS_TOO_SHORT);
    SAME(size, 0);
    SAME(lis_line_frame(&line, first, frame, sizeof frame, &size), LIS_STATUS_OK);
    SAME(size == out.len && memcmp(frame, out.bytes, size) == 0, true);
    for (int turn = 0; turn < 6; turn++)
        lis_line_reply(&line, first, NAK, &out);
    SAME(lis_sender_outcome(&line.sender), LIS_OUTCOME_SIX_TRIES);
    starts();
    is_done(first);
}

/* A session of a station, which sends ENQ; or none, since a late reply could come. */
static void station_starts(lis_station_line *both, lis_status status) {
    SAME(lis_station_add_text(&both->station, (const uint8_t *)"L|1\r", 4), LIS_STATUS_OK);
    fault.index = fault.place = 9;
    out.len = 9;
    SAME(lis_station_line_start(both, &out, &fault), status);
    SAME(fault.index + fault.place, 0);
    SAME(out.len, status == LIS_STATUS_OK ? 1 : 9);
    if (status != LIS_STATUS_OK)
        lis_station_clear(&both->station);
}

/* A station hears a byte; how its last session ended. */
static lis_outcome hears(lis_station_line *both, uint8_t byte) {
    lis_answer answer;
    lis_station_byte(&both->station, byte, &answer);
    return lis_station_outcome(&both->station);
}

static void of_station(void) {
    lis_station station = {malloc(lis_station_size())};
    lis_station_line both;
    lis_answer answer;
    if (station.at == NULL)
        exit(2);
    lis_station_init(station.at);
    lis_station_line_init(&both, station);
    SAME(lis_station_line_needs_new(&both), true);
    station_starts(&both, LIS_STATUS_OLD_LINE);         /* a new process: there is no connection yet */
    lis_station_line_connected(&both);
    SAME(lis_station_line_needs_new(&both), false);
    SAME(lis_station_line_start(&both, &out, &fault), LIS_STATUS_NO_TEXT);
    station_starts(&both, LIS_STATUS_OK);
    SAME(lis_station_line_needs_new(&both), true);      /* of an ENQ after a wait */
    station_starts(&both, LIS_STATUS_IN_SESSION);
    hears(&both, ACK);
    SAME(hears(&both, ACK), LIS_OUTCOME_DONE);
    SAME(lis_station_line_needs_new(&both), false);     /* after a session that is done the connection is good */
    station_starts(&both, LIS_STATUS_OK);
    lis_station_timer(&both.station, &answer);
    SAME(lis_station_outcome(&both.station), LIS_OUTCOME_TIMED_OUT);
    station_starts(&both, LIS_STATUS_OLD_LINE);
    lis_station_line_connected(&both);
    station_starts(&both, LIS_STATUS_OK);
    lis_station_give_up(&both.station);
    station_starts(&both, LIS_STATUS_OLD_LINE);
    lis_station_line_connected(&both);
    hears(&both, ENQ);
    station_starts(&both, LIS_STATUS_LINE_OPEN);
    SAME(lis_station_line_needs_new(&both), false);
    lis_station_line_connected(&both);                  /* it is restarted: the other side hasn't the line */
    station_starts(&both, LIS_STATUS_OK);
    lis_station_end(both.station);
    free(both.station.at);
}

/* How long each timer runs. */
static void of_seconds(void) {
    lis_receiver receiver = {malloc(lis_receiver_size())};
    lis_step step;
    uint32_t seconds = 9;
    uint64_t first = lis_line_connected(&line);
    if (receiver.at == NULL)
        exit(2);
    SAME(lis_sender_timer_seconds(&line.sender, &seconds), false);
    SAME(seconds, 0);
    starts();
    SAME(lis_sender_timer_seconds(&line.sender, &seconds) && seconds == LIS_SECONDS_REPLY, true);
    lis_line_reply(&line, first, NAK, &out);
    SAME(lis_sender_timer_seconds(&line.sender, &seconds) && seconds == LIS_SECONDS_BUSY, true);
    lis_line_timer(&line, &out);
    lis_line_reply(&line, first, ENQ, &out);
    SAME(lis_sender_timer_seconds(&line.sender, &seconds) && seconds == LIS_SECONDS_CONTENTION, true);
    lis_line_timer(&line, &out);
    lis_line_reply(&line, first, ACK, &out);
    SAME(lis_sender_timer_seconds(&line.sender, &seconds) && seconds == LIS_SECONDS_REPLY, true);
    lis_receiver_init(receiver.at);
    SAME(lis_receiver_timer_seconds(&receiver, &seconds), false);
    SAME(seconds, 0);
    lis_receiver_byte(&receiver, ENQ, &step);
    SAME(lis_receiver_timer_seconds(&receiver, &seconds) && seconds == LIS_SECONDS_RECEIVER, true);
    lis_receiver_end(receiver);
    free(receiver.at);
}

int main(void) {
    lis_sender sender = {malloc(lis_sender_size())};
    if (sender.at == NULL)
        return 2;
    lis_sender_init(sender.at);
    lis_line_init(&line, sender);
    of_timeouts();
    of_restarts();
    of_tries();
    of_station();
    of_seconds();
    lis_sender_end(line.sender);
    free(line.sender.at);
    printf("%d compared\n", compared);
    return 0;
}
