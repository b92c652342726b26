/* The record that lis_reader_read found last, with its text and all its parts: in pieces of any length, compared with
 * tests/ffi/parts.h; without a record; with too little room; and one of 65,536 bytes in time. Prints how many things
 * were compared. */
#include <stdio.h>
#include <stdlib.h>

static long compared;
static void fail(const char *what, int line) {
    fprintf(stderr, "line %d: %s\n", line, what);
    exit(1);
}
#define CHECK(good) ((good) ? (void)compared++ : fail(#good, __LINE__))

#include "parts_check.h"
#include <time.h>

/* Delimiters that are not the usual ones, escapes, empty parts, a record without fields, and a second message. */
static const char stream[] = "H*!+-*a+b*-F-\rp*1*^^^x\\!+2+-X4f-!\rO*1**|\rR*1*+++GLU*5.4*mmol/L\rC*1\rl\r"
                             "H|\\^&||\rL|1|N\r";

typedef struct of_reader {
    lis_reader handle;
    lis_found found;
    lis_table table;
} of_reader;

static of_reader begun(void) {
    of_reader s = {{malloc(lis_reader_size())}, {0}, {0}};
    lis_reader_init(s.handle.at);
    return s;
}

static void end(of_reader *s) {
    lis_reader_end(s->handle);
    free(s->handle.at);
}

static size_t reads(of_reader *s, const char *bytes, size_t len) {
    return lis_reader_read(&s->handle, (const uint8_t *)bytes, len, &s->found);
}

static bool same_table(const lis_table *table, size_t count, size_t len, const lis_delimiters *by) {
    return table->count == count && table->len == len && memcmp(&table->delimiters, by, sizeof *by) == 0;
}

/* No record was found last: nothing is written but the table and the size. */
static void has_none(of_reader *s) {
    static const lis_delimiters none = {0, 0, 0, 0};
    lis_part part, before;
    uint8_t byte = 0xa5;
    size_t size = 7;
    CHECK(lis_reader_part(&s->handle, 2, 0, 0, &byte, 1, &size) == LIS_STATUS_NO_RECORD && size == 0 && byte == 0xa5);
    size = 7;
    memset(&before, 0xa5, sizeof before);
    part = before;
    memset(&s->table, 0xa5, sizeof s->table);
    CHECK(lis_reader_parts(&s->handle, &part, 1, &s->table) == LIS_STATUS_NO_RECORD);
    CHECK(same_table(&s->table, 0, 0, &none) && memcmp(&part, &before, sizeof part) == 0);
    CHECK(lis_reader_text(&s->handle, &byte, 1, &size) == LIS_STATUS_NO_RECORD && size == 0 && byte == 0xa5);
}

/* The text in a buffer of its length, and in one that is shorter. */
static void has_text(of_reader *s, const uint8_t *text, size_t len) {
    uint8_t *room = malloc(len + 1);
    size_t size = 7;
    memset(room, 0xa5, len + 1);
    CHECK(lis_reader_text(&s->handle, room, len, &size) == LIS_STATUS_OK && size == len);
    CHECK(memcmp(room, text, len) == 0 && room[len] == 0xa5);
    memset(room, 0xa5, len);
    CHECK(lis_reader_text(&s->handle, room, len - 1, &size) == LIS_STATUS_TOO_SHORT && size == 0 && room[0] == 0xa5);
    free(room);
}

/* All parts, in a table of their number and in one that is shorter. */
static void has_parts(of_reader *s, const lis_delimiters *by, const uint8_t *text, size_t len, bool decode) {
    lis_part *room = malloc((len + 1) * sizeof *room), last;
    size_t count = wanted_parts(by, text, len, wanted);
    memset(room, 0xa5, (len + 1) * sizeof *room);
    last = room[count];
    CHECK(lis_reader_parts(&s->handle, room, count, &s->table) == LIS_STATUS_OK);
    CHECK(same_table(&s->table, count, len, by) && memcmp(&room[count], &last, sizeof last) == 0);
    check_entries(by, text, len, room, count, decode);
    if (count > 0) {
        memset(room, 0xa5, count * sizeof *room);
        memset(&s->table, 0xa5, sizeof s->table);
        CHECK(lis_reader_parts(&s->handle, room, count - 1, &s->table) == LIS_STATUS_TOO_SHORT);
        CHECK(same_table(&s->table, count, len, by) && memcmp(&room[count - 1], &last, sizeof last) == 0);
        CHECK(count == 1 || room[count - 2].offset == wanted[count - 2].offset);
    }
    free(room);
}

/* The stream in pieces of this length: after each record it has that one, and while it reads on it has none. */
static void of_pieces(size_t piece) {
    static const lis_delimiters first = {'*', '!', '+', '-'}, second = {'|', '\\', '^', '&'};
    of_reader s = begun();
    size_t len = sizeof stream - 1, start = 0, records = 0;
    has_none(&s);
    for (size_t done = 0; done < len;) {
        size_t most = piece < len - done ? piece : len - done, read = reads(&s, stream + done, most);
        done += read;
        CHECK(read > 0 && s.found.kind != LIS_FOUND_REFUSED);
        if (s.found.kind != LIS_FOUND_RECORD) {
            has_none(&s);
            continue;
        }
        const uint8_t *text = (const uint8_t *)stream + start;
        const lis_delimiters *by = records < 6 ? &first : &second;
        has_parts(&s, by, text, done - 1 - start, true);
        has_text(&s, text, done - 1 - start);
        start = done;
        records++;
    }
    CHECK(records == 8 && lis_reader_finish(&s.handle, &s.found) == LIS_STATUS_OK);
    has_text(&s, (const uint8_t *)"L|1|N", 5);
    reads(&s, "", 0);
    has_none(&s);
    end(&s);
}

/* A record that lis_reader_next read is none of these, nor is one that can't be read. */
static void of_none(void) {
    of_reader s = begun();
    lis_part part;
    CHECK(lis_reader_next(&s.handle, (const uint8_t *)"H|\\^&|\r", 7, &s.found, &part, 1, &s.table) == 7);
    has_none(&s);
    CHECK(reads(&s, "P|1", 3) == 3 && reads(&s, "\r", 1) == 1);
    has_text(&s, (const uint8_t *)"P|1", 3);
    CHECK(reads(&s, "R|1", 3) == 3 && reads(&s, "\r", 1) == 0 && s.found.kind == LIS_FOUND_REFUSED);
    has_none(&s);
    end(&s);
}

/* A record of delimiters, as long as one may be. */
static void of_time(void) {
    static char text[LIS_LIMIT_RECORD_BYTES];
    static const lis_delimiters usual = {'|', '\\', '^', '&'};
    of_reader s = begun();
    memset(text, '|', sizeof text);
    text[0] = 'P';
    CHECK(reads(&s, "H|\\^&", 5) == 5 && reads(&s, "\r", 1) == 1);
    CHECK(reads(&s, text, sizeof text) == sizeof text && reads(&s, "\r", 1) == 1);
    clock_t begin = clock();
    CHECK(lis_reader_parts(&s.handle, given, MOST_PARTS, &s.table) == LIS_STATUS_OK);
    CHECK(clock() - begin < CLOCKS_PER_SEC / 4);
    CHECK(same_table(&s.table, sizeof text - 1, sizeof text, &usual));
    has_parts(&s, &usual, (const uint8_t *)text, sizeof text, false);
    has_text(&s, (const uint8_t *)text, sizeof text);
    end(&s);
}

int main(void) {
    for (size_t piece = 1; piece < sizeof stream; piece++)
        of_pieces(piece);
    of_none();
    of_time();
    printf("%ld compared\n", compared);
    return 0;
}
