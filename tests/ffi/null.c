/* A null pointer with the length 0 is no bytes, for each call that takes a length. Prints how many things were compared. */
#include "lislink.h"
#include <stdio.h>
#include <stdlib.h>

static int compared;

static void same(unsigned long long found, unsigned long long wanted, int at) {
    compared++;
    if (found != wanted) {
        fprintf(stderr, "line %d: %llu, wanted %llu\n", at, found, wanted);
        exit(1);
    }
}
#define SAME(found, wanted) same((found), (wanted), __LINE__)

static lis_bytes out;
static lis_place fault;
static size_t size;

static void of_frames(void) {
    lis_scanner scanner = {malloc(lis_scanner_size())};
    lis_signal signal;
    size_t place;
    lis_scanner_init(scanner.at);
    for (int i = 0; i < 2; i++) {
        SAME(lis_scanner_feed(&scanner, NULL, 0, &signal), 0);
        SAME(signal.kind, LIS_SIGNAL_NONE);
        SAME(lis_scanner_text(&scanner, NULL, 0), LIS_STATUS_OK);
        SAME(lis_scanner_set_limit(&scanner, LIS_LIMIT_LONG_FRAME_TEXT), LIS_STATUS_OK);
    }
    lis_scanner_end(scanner);
    free(scanner.at);
    SAME(lis_frame_write(1, true, NULL, 0, &out, &size), LIS_STATUS_OK);
    SAME(out.len, 7);
    SAME(lis_long_frame_write(1, true, NULL, 0, NULL, 0, &size, &place), LIS_STATUS_TOO_SHORT);
    SAME(lis_long_frame_write(1, true, NULL, 0, out.bytes, sizeof out.bytes, &size, &place), LIS_STATUS_OK);
    SAME(size, 7);
}

static void of_sender(void) {
    static const lis_text texts[] = {{NULL, 0}};
    lis_sender sender = {malloc(lis_sender_size())};
    lis_sender_init(sender.at);
    SAME(lis_sender_frame(&sender, NULL, 0, &size), LIS_STATUS_ABSENT);
    SAME(lis_sender_start_lent(&sender, NULL, 0, &out, &fault), LIS_STATUS_NO_TEXT);
    SAME(lis_text_check(NULL, 0, &size), LIS_STATUS_OK);
    SAME(lis_sender_add_text(&sender, NULL, 0), LIS_STATUS_OK);
    SAME(lis_sender_start(&sender, &out, &fault), LIS_STATUS_OK);
    lis_sender_reply(&sender, 6, &out);
    SAME(out.len, 7);
    SAME(lis_sender_frame(&sender, NULL, 0, &size), LIS_STATUS_TOO_SHORT);
    lis_sender_restart(&sender);
    SAME(lis_sender_start_lent(&sender, texts, 1, &out, &fault), LIS_STATUS_OK);
    lis_sender_reply(&sender, 6, &out);
    SAME(out.len, 7);
    lis_sender_end(sender);
    free(sender.at);
}

static void of_receiver(void) {
    static const uint8_t frames[] = "\005\0021a\00395\r\n\0022\00335\r\n";
    lis_receiver receiver = {malloc(lis_receiver_size())};
    lis_step step;
    lis_receiver_init(receiver.at);
    SAME(lis_receiver_set_limit(&receiver, LIS_LIMIT_LONG_FRAME_TEXT), LIS_STATUS_OK);
    SAME(lis_receiver_hear(&receiver, NULL, 0, &step), 0);
    SAME(step.note, LIS_NOTE_QUIET);
    SAME(lis_receiver_set_limit(&receiver, LIS_LIMIT_FRAME_TEXT), LIS_STATUS_OK);
    SAME(lis_receiver_hear(&receiver, NULL, 0, &step), 0);
    SAME(step.note, LIS_NOTE_QUIET);
    SAME(lis_receiver_text(&receiver, NULL, 0), LIS_STATUS_OK);
    for (size_t at = 0; at < sizeof frames - 1;) {
        at += lis_receiver_hear(&receiver, frames + at, sizeof frames - 1 - at, &step);
        if (step.has_text)
            SAME(lis_receiver_text(&receiver, NULL, 0),
                 lis_receiver_text_len(&receiver) > 0 ? LIS_STATUS_TOO_SHORT : LIS_STATUS_OK);
    }
    SAME(lis_receiver_accepted(&receiver), 2);
    lis_receiver_end(receiver);
    free(receiver.at);
}

static void of_records(void) {
    lis_delimiters by = {'|', '\\', '^', '&'};
    lis_record record;
    lis_part part;
    uint8_t plain;
    SAME(lis_header_parts(NULL, 0, NULL, 0, &size), LIS_STATUS_NO_RECORD);
    SAME(lis_record_parts(&by, NULL, 0, NULL, 0, &size), LIS_STATUS_NO_RECORD);
    SAME(lis_record_parts(&by, (const uint8_t *)"P|", 2, NULL, 0, &size), LIS_STATUS_TOO_SHORT);
    SAME(size, 1);
    SAME(lis_record_parts(&by, (const uint8_t *)"P|", 2, &part, 1, &size), LIS_STATUS_OK);
    SAME(lis_header_parts((const uint8_t *)"H|\\^&|", 6, NULL, 0, &size), LIS_STATUS_TOO_SHORT);
    SAME(size, 1);
    SAME(lis_part_decode(&by, NULL, 0, NULL, 0, &size), LIS_STATUS_OK);
    SAME(size, 0);
    SAME(lis_part_decode(&by, NULL, 0, &plain, 1, &size), LIS_STATUS_OK);
    SAME(lis_part_decode(&by, (const uint8_t *)"1", 1, NULL, 0, &size), LIS_STATUS_TOO_SHORT);
    SAME(lis_header_read(NULL, 0, &by, &record), LIS_STATUS_NO_RECORD);
    SAME(lis_record_read(&by, NULL, 0, &record), LIS_STATUS_NO_RECORD);
    SAME(lis_header_part(NULL, 0, 3, 0, 0, NULL, 0, &size), LIS_STATUS_NO_RECORD);
    SAME(lis_record_part(&by, NULL, 0, 2, 0, 0, NULL, 0, &size), LIS_STATUS_NO_RECORD);
    SAME(lis_record_part(&by, (const uint8_t *)"P|", 2, 2, 0, 0, NULL, 0, &size), LIS_STATUS_OK);
    SAME(lis_record_part(&by, (const uint8_t *)"P|1", 3, 2, 0, 0, NULL, 0, &size), LIS_STATUS_TOO_SHORT);
}

static void of_reader(void) {
    lis_reader reader = {malloc(lis_reader_size())};
    lis_found found;
    lis_table table;
    lis_reader_init(reader.at);
    SAME(lis_reader_read(&reader, NULL, 0, &found), 0);
    SAME(found.kind, LIS_FOUND_NOTHING);
    SAME(lis_reader_read(&reader, (const uint8_t *)"H|\\^&|", 6, &found), 6);
    SAME(lis_reader_read(&reader, NULL, 0, &found), 0);
    SAME(lis_reader_read(&reader, (const uint8_t *)"\r", 1, &found), 1);
    SAME(found.kind, LIS_FOUND_RECORD);
    SAME(lis_reader_part(&reader, 3, 0, 0, NULL, 0, &size), LIS_STATUS_OK);
    SAME(lis_reader_part(&reader, 4, 0, 0, NULL, 0, &size), LIS_STATUS_ABSENT);
    SAME(lis_reader_parts(&reader, NULL, 0, &table), LIS_STATUS_TOO_SHORT);
    SAME(table.count, 1);
    SAME(lis_reader_text(&reader, NULL, 0, &size), LIS_STATUS_TOO_SHORT);
    SAME(size, 0);
    lis_reader_end(reader);
    lis_reader_init(reader.at);
    SAME(lis_reader_next(&reader, NULL, 0, &found, NULL, 0, &table), 0);
    SAME(lis_reader_next(&reader, (const uint8_t *)"H|\\^&|\r", 7, &found, NULL, 0, &table), 7);
    SAME(found.kind, LIS_FOUND_RECORD);
    SAME(table.count, 1);
    lis_reader_end(reader);
    free(reader.at);
}

static void of_message(void) {
    lis_message message;
    lis_found found;
    SAME(lis_message_places(NULL, 0, NULL, 0, &message, &found), LIS_STATUS_NO_RECORD);
    SAME(message.count + message.len + found.kind, 0);
    SAME(lis_message_places((const uint8_t *)"H|\\^&\rL|1\r", 10, NULL, 0, &message, &found), LIS_STATUS_TOO_SHORT);
    SAME(message.count, 2);
    SAME(message.len, 10);
}

static void of_writer(void) {
    lis_writer writer = {malloc(lis_writer_size())};
    uint8_t text[16];
    lis_writer_init(writer.at);
    SAME(lis_writer_record(&writer, 'H'), LIS_STATUS_OK);
    SAME(lis_writer_component(&writer, NULL, 0), LIS_STATUS_OK);
    SAME(lis_writer_repeat(&writer, NULL, 0), LIS_STATUS_OK);
    SAME(lis_writer_field(&writer, NULL, 0), LIS_STATUS_OK);
    SAME(lis_writer_put(&writer, &size), LIS_STATUS_OK);
    SAME(lis_writer_text(&writer, 0, NULL, 0, &size), LIS_STATUS_TOO_SHORT);
    SAME(lis_writer_text(&writer, 0, text, sizeof text, &size), LIS_STATUS_OK);
    SAME(size, 9);
    lis_writer_end(writer);
    free(writer.at);
}

int main(void) {
    of_frames();
    of_sender();
    of_receiver();
    of_records();
    of_reader();
    of_message();
    of_writer();
    printf("%d compared\n", compared);
    return 0;
}
