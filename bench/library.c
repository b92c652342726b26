/* How fast the library for C is: for bench/library, which says how it is run. Each line has the median and
 * the best of the rounds, in MB/s of what is read by processor time; each round does everything once. */
#include <lislink.h>
#include <stdio.h>
#include <stdlib.h>
#include <string.h>
#include <time.h>

enum { SIZE = 16 << 20, MOST_ROUNDS = 21, MOST_PARTS = 2 * LIS_LIMIT_RECORD_BYTES, ENTRIES = 4096 };

static uint8_t *data;
static size_t len, rounds;
static lis_part parts[MOST_PARTS];
static lis_entry entries[ENTRIES];
static uint8_t room[LIS_LIMIT_RECORD_BYTES];

static double now(void) {
    struct timespec time;
    clock_gettime(CLOCK_PROCESS_CPUTIME_ID, &time);
    return (double)time.tv_sec + 1e-9 * (double)time.tv_nsec;
}

static void check(bool good, const char *what) {
    if (!good) {
        fprintf(stderr, "%s\n", what);
        exit(1);
    }
}

/* Sessions of 50 frames. */
static void make_link(const char *form) {
    len = 0;
    while (len < SIZE - 16384) {
        data[len++] = 5;
        for (unsigned number = 1; number <= 50; number++) {
            char text[300];
            lis_bytes out;
            size_t place;
            int size = snprintf(text, sizeof text, form, number);
            check(lis_frame_write((uint8_t)(number & 7), true, (uint8_t *)text, (size_t)size, &out, &place)
                  == LIS_STATUS_OK, "a frame");
            memcpy(data + len, out.bytes, out.len);
            len += out.len;
        }
        data[len++] = 4;
    }
}

/* Messages of 20 results of chemistry. */
static void make_records(void) {
    len = 0;
    while (len < SIZE - 16384) {
        len += (size_t)sprintf((char *)data + len, "H|\\^&|||Analyzer\rP|1||PID\rO|1|S7||^^^GLU\r");
        for (int number = 1; number <= 20; number++)
            len += (size_t)sprintf((char *)data + len,
                                   "R|%d|^^^GLU|5.4|mmol/L|3.9 to 6.1|N||F||op1||20260101115900|AN1\r", number);
        len += (size_t)sprintf((char *)data + len, "L|1|N\r");
    }
}

/* A message with one record of delimiters. */
static void make_delimiters(void) {
    len = (size_t)sprintf((char *)data, "H|\\^&\rP");
    memset(data + len, '|', LIS_LIMIT_RECORD_BYTES - 1);
    len += LIS_LIMIT_RECORD_BYTES - 1;
    data[len++] = '\r';
}

static size_t hear(size_t piece) {
    lis_receiver receiver = {malloc(lis_receiver_size())};
    size_t texts = 0;
    lis_receiver_init(receiver.at);
    for (size_t at = 0, heard; at < len; at += heard) {
        lis_step step;
        heard = lis_receiver_hear(&receiver, data + at, len - at < piece ? len - at : piece, &step);
        if (step.has_text)
            texts += lis_receiver_text(&receiver, room, sizeof room) == LIS_STATUS_OK;
    }
    lis_receiver_end(receiver);
    free(receiver.at);
    return texts;
}

/* All parts of the record that was read last, one call each. */
static size_t each_part(lis_reader *reader, const lis_found *found) {
    size_t first = found->letter == 'H' ? 3 : 2, count = 0, size;
    for (size_t field = first; field < first + found->fields; field++)
        for (size_t component = 0; lis_reader_part(reader, field, 0, component, room, sizeof room, &size)
             == LIS_STATUS_OK; component++)
            count++;
    return count;
}

/* The same by one call. */
static size_t all_parts(lis_reader *reader) {
    lis_table table;
    check(lis_reader_parts(reader, parts, MOST_PARTS, &table) == LIS_STATUS_OK, "all parts");
    return table.count;
}

static size_t read_each(lis_reader *reader, size_t piece, int how) {
    size_t count = 0;
    for (size_t at = 0, read; at < len; at += read) {
        lis_found found;
        read = lis_reader_read(reader, data + at, len - at < piece ? len - at : piece, &found);
        if (found.kind == LIS_FOUND_RECORD)
            count += how == 0 ? 1 : how == 1 ? each_part(reader, &found) : all_parts(reader);
    }
    return count;
}

/* The records of whole lines in the data, each with all its parts at once. */
static size_t read_lines(lis_reader *reader, size_t piece) {
    lis_delimiters by = {'|', '\\', '^', '&'};
    size_t count = 0, begin = 0, found_parts;
    for (size_t at = 0, read; at < len; at += read) {
        lis_found found;
        lis_record header;
        read = lis_reader_read(reader, data + at, len - at < piece ? len - at : piece, &found);
        check(found.kind != LIS_FOUND_REFUSED, "a record");
        if (found.kind != LIS_FOUND_RECORD)
            continue;
        const uint8_t *text = data + begin;
        size_t size = at - begin;
        if (found.letter == 'H')
            check(lis_header_read(text, size, &by, &header) == LIS_STATUS_OK, "a header");
        lis_status told = found.letter == 'H' ? lis_header_parts(text, size, parts, MOST_PARTS, &found_parts)
                                              : lis_record_parts(&by, text, size, parts, MOST_PARTS, &found_parts);
        check(told == LIS_STATUS_OK, "parts");
        count += found_parts;
        begin = at + 1;
    }
    return count;
}

/* The same records without a reader: a line is a record. */
static size_t read_alone(void) {
    lis_delimiters by = {'|', '\\', '^', '&'};
    size_t count = 0, found_parts;
    for (const uint8_t *text = data, *end; text < data + len; text = end + 1) {
        lis_record header;
        end = memchr(text, '\r', (size_t)(data + len - text));
        if (*text == 'H') {
            check(lis_header_read(text, (size_t)(end - text), &by, &header) == LIS_STATUS_OK
                  && lis_header_parts(text, (size_t)(end - text), parts, MOST_PARTS, &found_parts) == LIS_STATUS_OK,
                  "a header");
        } else {
            check(lis_record_parts(&by, text, (size_t)(end - text), parts, MOST_PARTS, &found_parts)
                  == LIS_STATUS_OK, "a record");
        }
        count += found_parts;
    }
    return count;
}

/* The records of pieces, which begin at a record. */
static size_t read_pieces(lis_reader *reader, size_t piece) {
    size_t count = 0, used;
    for (size_t at = 0, read; at < len; at += read) {
        size_t size = len - at < piece ? len - at : piece;
        read = lis_reader_records(reader, data + at, size, entries, ENTRIES, parts, MOST_PARTS, &used);
        check(read > 0, "a record");
        for (size_t i = 0; i < used; i++)
            count += entries[i].table.count;
    }
    return count;
}

/* The messages as places in the data: how many results have a patient. */
static size_t read_messages(void) {
    static lis_record_place places[ENTRIES];
    size_t count = 0;
    for (size_t at = 0; at < len;) {
        lis_message message;
        lis_found found;
        check(lis_message_places(data + at, len - at, places, ENTRIES, &message, &found) == LIS_STATUS_OK, "a message");
        for (size_t i = 0; i < message.count; i++)
            count += places[i].letter == 'R' && places[places[places[i].parent].parent].letter == 'P';
        at += message.len;
    }
    return count;
}

static size_t read_records(size_t piece, int how) {
    lis_reader reader = {malloc(lis_reader_size())};
    size_t count = 0;
    lis_reader_init(reader.at);
    switch (how) {
    case 0:
    case 1:
    case 2:
        count = read_each(&reader, piece, how);
        break;
    case 3:
        count = read_lines(&reader, piece);
        break;
    case 4:
        count = read_alone();
        break;
    case 7:
        count = read_messages();
        break;
    default:
        count = read_pieces(&reader, how == 5 ? piece : 16 * piece);
        break;
    }
    lis_reader_end(reader);
    free(reader.at);
    return count;
}

static int by_size(const void *one, const void *other) {
    double a = *(const double *)one, b = *(const double *)other;
    return (a > b) - (a < b);
}

static void print(const char *what, const char *name, double *speeds) {
    qsort(speeds, rounds, sizeof *speeds, by_size);
    printf("%-14s %-44s %6.0f %6.0f\n", what, name, speeds[rounds / 2], speeds[rounds - 1]);
}

/* The calls on what is in `data`, each in turn. */
static void measure(const char *what, const char *const *names, size_t count, size_t (*call)(size_t)) {
    static double speeds[8][MOST_ROUNDS];
    for (size_t round = 0; round < rounds; round++)
        for (size_t i = 0; i < count; i++) {
            double begun = now();
            check(call(i) > 0, what);
            speeds[i][round] = (double)len / (now() - begun) / 1e6;
        }
    for (size_t i = 0; i < count; i++)
        print(what, names[i], speeds[i]);
}

static size_t call_hear(size_t how) {
    return hear(how == 0 ? 4096 : 65536);
}

static size_t call_records(size_t how) {
    return read_records(4096, (int)how);
}

int main(int count, char **words) {
    static const char *const link[] = {"lis_receiver_hear and _text, 4 KiB", "the same, 64 KiB"};
    static const char *const records[] = {"lis_reader_read, 4 KiB", "lis_reader_read, lis_reader_part, 4 KiB",
                                          "lis_reader_read, lis_reader_parts, 4 KiB",
                                          "lis_reader_read, lis_record_parts, 4 KiB", "lis_record_parts alone",
                                          "lis_reader_records, 4 KiB", "the same, 64 KiB",
                                          "lis_message_places, a message a call"};
    rounds = count > 1 ? (size_t)atoi(words[1]) : 7;
    check(rounds > 0 && rounds <= MOST_ROUNDS, "rounds from 1 to 21");
    data = malloc(SIZE + 65536);
    check(data != NULL, "memory");
    make_link("R|%u|^^^GLU|5.4|mmol/L|3.9 to 6.1|N||F\r");
    measure("short frames", link, 2, call_hear);
    make_link("R|%0237u\r");
    measure("full frames", link, 2, call_hear);
    make_records();
    measure("results", records, 8, call_records);
    make_delimiters();
    double begun = now();
    read_records(len, 4);
    printf("one record of 65,536 delimiters: %.5f s for all parts at once\n", now() - begun);
    free(data);
    return 0;
}
