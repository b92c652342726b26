/* A computer that answers queries on the line that is its standard input: answer_query FILE <>/dev/ttyUSB0. It appends
 * each text to a file before it is acknowledged, and sends the orders for the samples that the analyzer asked for (Q)
 * in a session of its own. Make a serial port raw first:
 * stty -F /dev/ttyUSB0 9600 cs8 -parenb -cstopb clocal raw -echo -iexten; or open it as serial.c does.
 *
 * It ends, with status 1, if a session of its own failed, a text can't be kept, or a reply would be late: the line is
 * then taken anew. */
#include "keep.h"

#include <lislink.h>
#include <poll.h>
#include <stdio.h>
#include <stdlib.h>
#include <string.h>
#include <time.h>
#include <unistd.h>

enum { LATE = LIS_SECONDS_REPLY * 2 / 3 };

typedef struct computer {
    lis_station station;
    lis_reader reader;          /* of the analyzer's session, at its end */
    lis_writer orders;          /* those that are to be sent, without the message's end */
    text_file store;
    uint8_t *texts;             /* of the session that goes on */
    size_t len, asked;          /* how many bytes these are; for how many samples there are orders */
    bool is_sending;            /* whether orders are being sent */
    long long due, free_at;     /* when the timer is over, less than 0 if none runs; when the line is this side's */
} computer;

#ifndef CLOCK_BOOTTIME
#define CLOCK_BOOTTIME CLOCK_MONOTONIC
#endif

static long long now(void) {
    struct timespec now;
    clock_gettime(CLOCK_BOOTTIME, &now);    /* it runs on while the machine is suspended */
    return now.tv_sec * 1000LL + now.tv_nsec / 1000000;
}

/* The timer begins anew. */
static void run_timer(computer *its) {
    uint32_t seconds;
    its->due = lis_station_timer_seconds(&its->station, &seconds) ? now() + seconds * 1000LL : -1;
}

/* Parts of the record that is being written; whether there is memory for them. */
static bool field(lis_writer *orders, const void *bytes, size_t len) {
    return lis_writer_field(orders, bytes, len) == LIS_STATUS_OK;
}

static bool blank(lis_writer *orders) {
    return lis_writer_component(orders, (const uint8_t *)"", 0) == LIS_STATUS_OK;
}

static bool put(lis_writer *orders) {
    size_t fault;
    return lis_writer_put(orders, &fault) == LIS_STATUS_OK;
}

static bool begin(lis_writer *orders, uint8_t letter) {
    return lis_writer_record(orders, letter) == LIS_STATUS_OK;
}

/* Writes an order of glucose for a sample; whether it could. */
static bool add_order(computer *its, const uint8_t *sample, size_t len) {
    lis_writer *to = &its->orders;
    char number[24];
    if (its->asked == 0 && !(begin(to, 'H') && put(to)))
        return false;
    int digits = snprintf(number, sizeof number, "%zu", ++its->asked);
    return begin(to, 'P') && field(to, number, (size_t)digits) && put(to)
        && begin(to, 'O') && field(to, "1", 1) && field(to, sample, len) && field(to, "", 0)
        && blank(to) && blank(to) && blank(to) && field(to, "GLU", 3) && put(to);
}

/* Writes an order for each sample that the session asked for: the second component of field 3 of a query. */
static bool add_orders(computer *its) {
    uint8_t *sample = malloc(its->len + 1);
    bool good = sample != NULL;
    lis_found found = {0};
    size_t size;
    lis_reader_end(its->reader);
    lis_reader_init(its->reader.at);
    for (size_t read = 0; good && read < its->len && found.kind != LIS_FOUND_REFUSED;) {
        read += lis_reader_read(&its->reader, its->texts + read, its->len - read, &found);
        if (found.kind == LIS_FOUND_RECORD && found.letter == 'Q'
            && lis_reader_part(&its->reader, 3, 0, 1, sample, its->len, &size) == LIS_STATUS_OK && size > 0)
            good = add_order(its, sample, size);
    }
    free(sample);
    return good;
}

/* Appends the text that is complete to the file, and to those of its session; whether it is on the disk. */
static bool keep(computer *its) {
    size_t len = lis_station_text_len(&its->station);
    uint8_t *texts = realloc(its->texts, its->len + len + 1);
    if (texts == NULL)
        return false;
    its->texts = texts;
    if (lis_station_text(&its->station, texts + its->len, len) != LIS_STATUS_OK
        || !keep_text(&its->store, texts + its->len, len))
        return false;
    its->len += len;
    return true;
}

/* Keeps what an answer delivers, and sends what it says; whether both went well, in time. */
static bool take(computer *its, const lis_answer *answer, long long since, int line) {
    if ((answer->step.has_text && !keep(its)) || now() - since > LATE * 1000LL)
        return false;                                                     /* keep, then send in time */
    if (answer->send.len > 0 && write(line, answer->send.bytes, answer->send.len) != (ssize_t)answer->send.len)
        return false;
    if (answer->step.note == LIS_NOTE_OPENED)
        its->len = 0;                                                     /* a session that failed comes again, whole */
    if (answer->step.note == LIS_NOTE_ENDED && !add_orders(its))
        return false;
    if (!answer->is_step || answer->step.note != LIS_NOTE_QUIET)
        run_timer(its);
    return true;
}

/* Starts a session with the orders; whether ENQ goes out. */
static bool start(computer *its, int line) {
    static const lis_delimiters usual = {'|', '\\', '^', '&'};
    static uint8_t text[LIS_LIMIT_RECORD_BYTES + 1];
    lis_bytes out;
    lis_place fault;
    size_t size;
    if (!(begin(&its->orders, 'L') && field(&its->orders, "1", 1) && field(&its->orders, "F", 1) && put(&its->orders)))
        return false;
    for (size_t i = 0; i < lis_writer_texts(&its->orders); i++)
        if (lis_writer_text(&its->orders, i, text, sizeof text, &size) != LIS_STATUS_OK
            || lis_station_add_text(&its->station, text, size) != LIS_STATUS_OK)
            return false;
    if (lis_station_start(&its->station, &out, &fault) != LIS_STATUS_OK || write(line, out.bytes, out.len) != 1)
        return false;
    its->asked = 0;
    its->is_sending = true;
    run_timer(its);
    return lis_writer_start(&its->orders, &usual) == LIS_STATUS_OK;
}

/* Looks how a session of its own ended, and starts one, if the line is free; whether the line can be used on. */
static bool turn(computer *its, int line) {
    bool is_open = lis_station_is_open(&its->station);
    uint32_t left = lis_station_turn_seconds(&its->station);
    if (its->is_sending && lis_station_phase(&its->station) == LIS_PHASE_NEUTRAL) {
        its->is_sending = false;
        its->free_at = now() + left * 1000LL;
        if (lis_station_outcome(&its->station) != LIS_OUTCOME_DONE)
            return false;                                                 /* a late reply may be on its way */
    }
    if (its->asked == 0 || its->is_sending || is_open || (left > 0 && now() < its->free_at))
        return true;
    return start(its, line);
}

/* Hears what came after a time; whether the line can be used on. */
static bool hear(computer *its, const uint8_t *bytes, size_t got, long long since, int line) {
    lis_answer answer;
    for (size_t heard = 0; heard < got;) {
        heard += lis_station_hear(&its->station, bytes + heard, got - heard, &answer);
        if (!take(its, &answer, since, line))
            return false;
    }
    return true;
}

/* Until the line is closed, 0, or has to be taken anew, 1. */
static int run(computer *its, int line) {
    struct pollfd ready = {line, POLLIN, 0};
    uint8_t bytes[512];
    lis_answer answer;
    for (long long since = now(); turn(its, line);) {
        long long before = now(), wait = its->due < 0 || its->due - before > 1000 ? 1000 : its->due - before;
        size_t got = 0;
        if (poll(&ready, 1, wait < 0 ? 0 : (int)wait) != 0) {
            ssize_t came = read(line, bytes, sizeof bytes);
            if (came <= 0)
                return came == 0 ? 0 : 1;
            got = (size_t)came;
        }
        if (!hear(its, bytes, got, since, line))                          /* bytes first, then the timer */
            return 1;
        if (got < sizeof bytes)
            since = before;                                               /* a full buffer may have left some */
        if (its->due >= 0 && now() >= its->due) {
            lis_station_timer(&its->station, &answer);
            if (!take(its, &answer, since, line))
                return 1;
        }
    }
    return 1;
}

int main(int count, char **words) {
    computer its = {.due = -1};
    its.station.at = malloc(lis_station_size());
    its.reader.at = malloc(lis_reader_size());
    its.orders.at = malloc(lis_writer_size());
    if (count != 2 || !its.station.at || !its.reader.at || !its.orders.at || !open_texts(&its.store, words[1]))
        return 1;
    lis_station_init(its.station.at);                                     /* a computer's */
    lis_station_set_careful(&its.station, true);                          /* a damaged byte acknowledges nothing */
    lis_reader_init(its.reader.at);
    lis_writer_init(its.orders.at);
    int status = run(&its, 0);
    lis_station_end(its.station);
    lis_reader_end(its.reader);
    lis_writer_end(its.orders);
    free(its.station.at);
    free(its.reader.at);
    free(its.orders.at);
    free(its.texts);
    close(its.store.file);
    return status;
}
