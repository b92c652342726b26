/* The scripted session over lislink.h: a message is written, sent, heard, kept and read back, with each call that is
 * rejected on the way. Prints what tests/ffi/session.txt has. */
#include <lislink.h>
#include <stdio.h>
#include <stdlib.h>
#include <string.h>

#define SAME(good) ((good) ? (void)0 : fail(#good))

static void fail(const char *what) {
    fprintf(stderr, "%s\n", what);
    exit(1);
}

static void *block(size_t size) {
    void *at = malloc(size);
    SAME(at != NULL);
    return at;
}

static uint8_t texts[5][64];
static size_t sizes[5];
static char store[256];
static size_t stored;

/* A record: its letter, and its fields with ; between them and ^ between components. */
static lis_status record(lis_writer *writer, const char *words, size_t *field) {
    lis_status status = lis_writer_record(writer, (uint8_t)words[0]);
    for (const char *rest = words + 1; status == LIS_STATUS_OK && *rest != 0;) {
        size_t len = strcspn(++rest, ";^");
        const uint8_t *bytes = (const uint8_t *)rest;
        rest += len;
        status = *rest == '^' ? lis_writer_component(writer, bytes, len) : lis_writer_field(writer, bytes, len);
    }
    return status == LIS_STATUS_OK ? lis_writer_put(writer, field) : status;
}

static void write_message(lis_writer *writer) {
    size_t field;
    SAME(record(writer, "x", &field) == LIS_STATUS_BAD_LETTER);
    SAME(lis_writer_put(writer, &field) == LIS_STATUS_NO_RECORD);
    SAME(record(writer, "H;;;Ana|yzer", &field) == LIS_STATUS_OK && record(writer, "P;1", &field) == LIS_STATUS_OK);
    lis_status status = record(writer, "R;1", &field);
    SAME(status == LIS_STATUS_PUT_NO_PARENT);
    printf("refused: %s\n", lis_status_text(status));
    SAME(record(writer, "O;1;S7", &field) == LIS_STATUS_OK);
    SAME(record(writer, "R;1;^^^GLU;5.4;mmol/L", &field) == LIS_STATUS_OK);
    status = record(writer, "R;1;a\nb", &field);
    printf("refused: %s, field %zu\n", lis_status_text(status), field);
    SAME(record(writer, "L;1;N", &field) == LIS_STATUS_OK && lis_writer_texts(writer) == 5);
    for (size_t i = 0; i < 5; i++)
        SAME(lis_writer_text(writer, i, texts[i], sizeof texts[i], &sizes[i]) == LIS_STATUS_OK);
    SAME(lis_writer_text(writer, 5, texts[0], sizeof texts[0], &field) == LIS_STATUS_ABSENT);
    for (size_t i = 0; i < 5; i++)
        SAME(lis_writer_text_len(writer, i) == sizes[i] && sizes[i] > 0);
    SAME(lis_writer_text_len(writer, 5) == 0);
}

/* What goes back: the reply, 0 for none; a text is kept as long as `room` is over 0. */
static uint8_t hear(lis_receiver *receiver, const lis_bytes *out, int *room) {
    uint8_t reply = 0;
    lis_step step;
    for (size_t heard = 0; heard < out->len;) {
        heard += lis_receiver_hear(receiver, out->bytes + heard, out->len - heard, &step);
        if (step.has_text) {
            size_t len = lis_receiver_text_len(receiver);
            if ((*room)-- <= 0) {
                lis_receiver_restart(receiver);
                return 0;
            }
            SAME(lis_receiver_text(receiver, (uint8_t *)store + stored, sizeof store - stored) == LIS_STATUS_OK);
            stored += len;
        }
        if (step.reply != 0)
            reply = step.reply;
    }
    return reply;
}

/* Carries a session between a sender and a receiver. */
static void carry(lis_line *line, lis_receiver *receiver, int room) {
    lis_bytes out;
    lis_place fault;
    for (size_t i = 0; i < 5; i++)
        SAME(lis_sender_add_text(&line->sender, texts[i], sizes[i]) == LIS_STATUS_OK);
    uint64_t connection = lis_line_connected(line);
    stored = 0;
    SAME(lis_line_start(line, &out, &fault) == LIS_STATUS_OK);
    for (int turn = 0; turn < 100 && lis_sender_phase(&line->sender) != LIS_PHASE_NEUTRAL; turn++) {
        uint8_t reply = hear(receiver, &out, &room);
        if (reply != 0)
            lis_line_reply(line, connection, reply, &out);
        else
            lis_line_timer(line, &out);
    }
    printf("outcome: %s, %d acknowledged\n", lis_outcome_text(lis_sender_outcome(&line->sender)),
           (int)lis_sender_acknowledged(&line->sender));
}

static void send_and_hear(void) {
    lis_sender sender = {block(lis_sender_size())};
    lis_receiver receiver = {block(lis_receiver_size())};
    lis_line line;
    lis_bytes out;
    lis_place fault;
    lis_sender_init(sender.at);
    lis_receiver_init(receiver.at);
    lis_line_init(&line, sender);
    carry(&line, &receiver, 2);
    SAME(!lis_receiver_is_open(&receiver) && lis_line_start(&line, &out, &fault) == LIS_STATUS_OLD_LINE);
    carry(&line, &receiver, 5);
    SAME(lis_sender_outcome(&line.sender) == LIS_OUTCOME_DONE);
    lis_sender_end(line.sender);
    lis_receiver_end(receiver);
    free(sender.at);
    free(receiver.at);
}

static void print_part(lis_reader *reader, size_t field, size_t component) {
    uint8_t part[64];
    size_t size;
    SAME(lis_reader_part(reader, field, 0, component, part, sizeof part, &size) == LIS_STATUS_OK);
    printf(" %.*s", (int)size, (const char *)part);
}

static void print_record(lis_reader *reader, const lis_found *found) {
    printf("%c %zu", found->letter, found->fields);
    if (found->letter == 'H')
        print_part(reader, 5, 0);
    if (found->letter == 'R') {
        print_part(reader, 3, 3);
        print_part(reader, 4, 0);
    }
    printf("\n");
}

static void read_back(void) {
    lis_reader reader = {block(lis_reader_size())};
    lis_found found;
    lis_reader_init(reader.at);
    for (size_t done = 0; done < stored;) {
        size_t piece = stored - done < 7 ? stored - done : 7;
        done += lis_reader_read(&reader, (const uint8_t *)store + done, piece, &found);
        SAME(found.kind != LIS_FOUND_REFUSED);
        if (found.kind == LIS_FOUND_RECORD)
            print_record(&reader, &found);
    }
    SAME(lis_reader_finish(&reader, &found) == LIS_STATUS_OK);
    SAME(lis_reader_read(&reader, (const uint8_t *)"R|1", 3, &found) == 3);
    SAME(lis_reader_read(&reader, (const uint8_t *)"\r", 1, &found) == 0 && found.kind == LIS_FOUND_REFUSED);
    printf("refused: record %d: %s\n", (int)found.number, lis_reason_text(found.reason));
    lis_reader_end(reader);
    free(reader.at);
}

int main(void) {
    lis_writer writer = {block(lis_writer_size())};
    lis_writer_init(writer.at);
    write_message(&writer);
    lis_writer_end(writer);
    free(writer.at);
    send_and_hear();
    read_back();
    return 0;
}
