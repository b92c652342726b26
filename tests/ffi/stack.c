/* How much of the stack calls take: a thread runs them on memory that was painted. lis_long_frame_write takes under
 * 64 KiB for the longest text; a session and records at the usual limit take under 16 KiB, so that they suit a thread of
 * 128 kB, as musl makes them; a sender and a station with the long limit suit one of a megabyte. */
#define _GNU_SOURCE
#include "lislink.h"
#include <pthread.h>
#include <stdio.h>
#include <stdlib.h>
#include <string.h>

enum { ROOM = 2 << 20, PAINT = 0xA5, ACK = 6, ENQ = 5 };
static uint8_t text[LIS_LIMIT_LONG_FRAME_TEXT], frame[LIS_LIMIT_LONG_FRAME_BYTES];
static size_t size, place;

static void *nothing(void *unused) { return unused; }

static void *writes(void *unused) {
    if (lis_long_frame_write(1, true, text, sizeof text, frame, sizeof frame, &size, &place) != LIS_STATUS_OK)
        exit(2);
    return unused;
}

#define DONE(holds) do { if (!(holds)) exit(3); } while (0)

/* A frame was copied, or none awaits its reply. */
static void copied(lis_status status) { DONE(status == LIS_STATUS_OK || status == LIS_STATUS_ABSENT); }

/* A session of a sender with texts of 1,000 bytes, which a station hears. */
static void carry(lis_sender *sender, lis_station *station, size_t len) {
    lis_bytes out;
    lis_place fault;
    lis_answer answer;
    DONE(lis_sender_add_text(sender, text, len) == LIS_STATUS_OK);
    DONE(lis_sender_start(sender, &out, &fault) == LIS_STATUS_OK);
    size = out.len;
    memcpy(frame, out.bytes, size);
    while (lis_sender_phase(sender) != LIS_PHASE_NEUTRAL) {
        for (size_t heard = 0; heard < size;)
            heard += lis_station_hear(station, frame + heard, size - heard, &answer);
        lis_sender_reply(sender, answer.send.bytes[0], &out);
        size = out.len;
        memcpy(frame, out.bytes, size);
        if (size == 0)
            copied(lis_sender_frame(sender, frame, sizeof frame, &size));
    }
    DONE(lis_sender_outcome(sender) == LIS_OUTCOME_DONE);
    lis_station_byte(station, 4, &answer);
    DONE(lis_station_text_len(station) == len && lis_station_text(station, frame, len) == LIS_STATUS_OK);
}

/* The same the other way: a station sends, and each frame is acknowledged. */
static void send_all(lis_station *station, size_t len) {
    lis_place fault;
    lis_answer answer;
    lis_bytes out;
    DONE(lis_station_add_text(station, text, len) == LIS_STATUS_OK);
    DONE(lis_station_start(station, &out, &fault) == LIS_STATUS_OK);
    while (lis_station_phase(station) != LIS_PHASE_NEUTRAL) {
        uint8_t reply = ACK;
        lis_station_hear(station, &reply, 1, &answer);
        copied(lis_station_frame(station, frame, sizeof frame, &size));
    }
    DONE(lis_station_outcome(station) == LIS_OUTCOME_DONE);
}

static void of_link(size_t limit, size_t len) {
    lis_sender sender = {malloc(LIS_SENDER_BLOCK)};
    lis_station station = {malloc(LIS_STATION_BLOCK)};
    DONE(sender.at != NULL && station.at != NULL);
    lis_sender_init(sender.at);
    lis_station_init(station.at);
    DONE(lis_sender_set_limit(&sender, limit) == LIS_STATUS_OK);
    DONE(lis_station_begin(&station, LIS_ROLE_ANALYZER, limit) == LIS_STATUS_OK);
    carry(&sender, &station, len);
    send_all(&station, len);
    lis_sender_end(sender);
    lis_station_end(station);
    free(sender.at);
    free(station.at);
}

/* Records of the longest kind, written and read. */
static void of_records(void) {
    static lis_part parts[LIS_LIMIT_RECORD_BYTES];
    lis_writer writer = {malloc(LIS_WRITER_BLOCK)};
    lis_reader reader = {malloc(LIS_READER_BLOCK)};
    lis_found found;
    lis_table table;
    size_t field;
    DONE(writer.at != NULL && reader.at != NULL);
    lis_writer_init(writer.at);
    lis_reader_init(reader.at);
    DONE(lis_writer_record(&writer, 'H') == LIS_STATUS_OK && lis_writer_field(&writer, text, 60000) == LIS_STATUS_OK);
    DONE(lis_writer_put(&writer, &field) == LIS_STATUS_OK);
    DONE(lis_writer_text(&writer, 0, frame, sizeof frame, &size) == LIS_STATUS_OK);
    for (size_t read = 0; read < size;)
        read += lis_reader_read(&reader, frame + read, size - read, &found);
    DONE(found.kind == LIS_FOUND_RECORD);
    DONE(lis_reader_parts(&reader, parts, LIS_LIMIT_RECORD_BYTES, &table) == LIS_STATUS_OK && table.count == 1);
    lis_writer_end(writer);
    lis_reader_end(reader);
    free(writer.at);
    free(reader.at);
}

static void *usual(void *unused) {
    of_link(LIS_LIMIT_FRAME_TEXT, 1000);
    of_records();
    return unused;
}

static void *longest(void *unused) {
    of_link(LIS_LIMIT_LONG_FRAME_TEXT, sizeof text);
    return unused;
}

/* The bytes of a stack that a thread touches. */
static size_t depth(void *(*run)(void *)) {
    uint8_t *stack = aligned_alloc(4096, ROOM);
    pthread_attr_t attributes;
    pthread_t thread;
    if (stack == NULL)
        exit(2);
    memset(stack, PAINT, ROOM);
    pthread_attr_init(&attributes);
    if (pthread_attr_setstack(&attributes, stack, ROOM) != 0 || pthread_create(&thread, &attributes, run, NULL) != 0)
        exit(2);
    pthread_join(thread, NULL);
    size_t left = 0;
    while (left < ROOM && stack[left] == PAINT)
        left++;
    free(stack);
    return ROOM - left;
}

/* Whether calls take less of the stack than this. */
static bool is_under(const char *what, void *(*run)(void *), size_t most) {
    size_t least = depth(nothing), all = depth(run);
    size_t taken = all > least ? all - least : 0;
    printf("%s: %s %zu KiB\n", what, taken < most ? "under" : "not under", most >> 10);
    fprintf(stderr, "%s: %zu bytes\n", what, taken);
    return taken < most;
}

int main(void) {
    memset(text, 'a', sizeof text);
    bool good = is_under("lis_long_frame_write", writes, 64 << 10) && size == sizeof frame;
    good = is_under("the usual limit", usual, 16 << 10) && good;
    return !(is_under("the long limit", longest, 1000 << 10) && good);
}
