/* How deep the stack gets in each call of the library for C, the crates' own calls among them. */
#include "lislink.h"
#include <stdio.h>
#include <stdlib.h>
#include <string.h>
#include <ucontext.h>

enum { ROOM = 1 << 20, PAINT = 0xA5 };
static unsigned char stack[ROOM] __attribute__((aligned(16)));
static ucontext_t here, there;

/* A session of one text, and a message's records. */
static const uint8_t session[] = "\x05\x02" "1A\x03" "75\r\n\x04";
static const uint8_t message[] = "H|\\^&\rP|1\rO|1|S7\rR|1|^^^GLU|5.4|mmol/L\rL|1|N\r";
static lis_scanner scanner;
static lis_sender sender;
static lis_receiver receiver;
static lis_station station;
static lis_answer answer;
static lis_reader reader;
static lis_writer writer;
static lis_bytes bytes;
static lis_signal signal_;
static lis_step step;
static lis_found found;
static lis_place place;
static lis_delimiters delimiters;
static lis_record record;
static lis_part parts[8];
static lis_table table;
static uint8_t out[256];
static size_t size;
static lis_status status;

static void nothing(void) {}
static void scanner_feed(void) {
    for (size_t at = 0; at < sizeof session - 1;)
        at += lis_scanner_feed(&scanner, session + at, sizeof session - 1 - at, &signal_);
}
static void sender_add_text(void) { status = lis_sender_add_text(&sender, (const uint8_t *)"P|1\r", 4); }
static void sender_start(void) { status = lis_sender_start(&sender, &bytes, &place); }
static void sender_reply(void) { lis_sender_reply(&sender, 0x06, &bytes); }
static void sender_timer(void) { lis_sender_timer(&sender, &bytes); }
static void receiver_hear(void) {
    for (size_t at = 0; at < sizeof session - 1;)
        at += lis_receiver_hear(&receiver, session + at, sizeof session - 1 - at, &step);
}
static void station_hear(void) {
    for (size_t at = 0; at < sizeof session - 1;)
        at += lis_station_hear(&station, session + at, sizeof session - 1 - at, &answer);
}
static void station_reply(void) {
    status = lis_station_add_text(&station, (const uint8_t *)"P|1\r", 4);
    status = lis_station_start(&station, &bytes, &place);
    lis_station_byte(&station, 0x06, &answer);
}
static void reader_read(void) {
    for (size_t at = 0; at < sizeof message - 1;) {
        at += lis_reader_read(&reader, message + at, sizeof message - 1 - at, &found);
        status = lis_reader_part(&reader, 4, 1, 1, out, sizeof out, &size);
        status = lis_reader_parts(&reader, parts, 8, &table);
        status = lis_reader_text(&reader, out, sizeof out, &size);
    }
}
static void record_read(void) { status = lis_header_read(message, 5, &delimiters, &record); }
static void writer_put(void) {
    status = lis_writer_record(&writer, 'H');
    status = lis_writer_put(&writer, &size);
    status = lis_writer_record(&writer, 'P');
    status = lis_writer_component(&writer, (const uint8_t *)"1", 1);
    status = lis_writer_field(&writer, (const uint8_t *)"2", 1);
    status = lis_writer_put(&writer, &size);
    status = lis_writer_text(&writer, 1, out, sizeof out, &size);
}

/* The bytes of the stack that a call touches. */
static size_t depth(void (*call)(void)) {
    memset(stack, PAINT, ROOM);
    getcontext(&there);
    there.uc_stack.ss_sp = stack;
    there.uc_stack.ss_size = ROOM;
    there.uc_link = &here;
    makecontext(&there, call, 0);
    swapcontext(&here, &there);
    size_t left = 0;
    while (left < ROOM && stack[left] == PAINT)
        left++;
    return ROOM - left;
}

static void *block(size_t bytes_) {
    void *at = malloc(bytes_);
    if (at == NULL)
        exit(2);
    return at;
}

int main(void) {
    static const struct { const char *name; void (*call)(void); } calls[] = {
        {"scanner", scanner_feed},         {"sender: a text", sender_add_text}, {"sender: start", sender_start},
        {"sender: a reply", sender_reply}, {"sender: the timer", sender_timer}, {"receiver", receiver_hear},
        {"station", station_hear},         {"station: a reply", station_reply}, {"reader", reader_read},
        {"a header", record_read},         {"writer", writer_put},
    };
    lis_scanner_init((scanner.at = block(lis_scanner_size())));
    lis_sender_init((sender.at = block(lis_sender_size())));
    lis_receiver_init((receiver.at = block(lis_receiver_size())));
    lis_station_init((station.at = block(lis_station_size())));
    lis_reader_init((reader.at = block(lis_reader_size())));
    lis_writer_init((writer.at = block(lis_writer_size())));
    size_t least = depth(nothing);
    for (size_t i = 0; i < sizeof calls / sizeof calls[0]; i++)
        printf("%-20s %zu\n", calls[i].name, depth(calls[i].call) - least);
    return 0;
}
