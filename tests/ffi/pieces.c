/* Messages are read in pieces of any length by lis_reader_records, into tables of any length, and compared with what
 * lis_reader_read and lis_record_parts say of the same stream; also a record that can't come next. The cells of
 * lis_reader_columns are compared with lis_record_part. */
#include <stdio.h>
#include <stdlib.h>
#include <string.h>

#include "lislink.h"

enum { ROOM = 4096, RECORDS = 64, ROUNDS = 300 };

static unsigned seed = 7;

static size_t below(size_t limit) {
    seed = seed * 1103515245u + 12345u;
    return (seed >> 16) % limit;
}

static void fail(const char *what) {
    puts(what);
    exit(1);
}

static size_t make(char *stream) {
    size_t len = (size_t)sprintf(stream, "H|\\^&|||Analyzer\rP|1||PID\rO|1|S7||^^^GLU\\^^^NA\r");
    for (size_t k = 1 + below(20); k > 0; k--)
        len += (size_t)sprintf(stream + len, "R|%zu|^^^GLU|5.%zu|mmol&S&L|%.*s||F\r", k, below(10), (int)below(9),
                               "3.9 to 6");
    return len + (size_t)sprintf(stream + len, below(2) ? "L|1|N\r" : "L\r");
}

/* What the two calls say of the record that ends at a CR. */
static void compare(lis_reader *other, const uint8_t *text, const lis_entry *entry, const lis_part *parts) {
    lis_part wanted[ROOM];
    lis_found found;
    size_t count, len = entry->table.len;
    const lis_delimiters *delimiters = &entry->table.delimiters;
    if (lis_reader_read(other, text, len, &found) != len) fail("held");
    if (lis_reader_read(other, text + len, 1, &found) != 1 || found.kind != LIS_FOUND_RECORD) fail("read");
    if (found.letter != entry->letter || found.fields != entry->fields) fail("record");
    lis_status status = entry->letter == 'H' ? lis_header_parts(text, len, wanted, ROOM, &count)
                                             : lis_record_parts(delimiters, text, len, wanted, ROOM, &count);
    if (status != LIS_STATUS_OK || count != entry->table.count || memcmp(delimiters, "|\\^&", 4) != 0) fail("table");
    if (memcmp(wanted, parts + entry->part, count * sizeof *parts) != 0) fail("parts");
}

static size_t round_of(lis_reader *s, lis_reader *other, const uint8_t *stream, size_t len) {
    lis_entry entries[RECORDS];
    lis_part parts[ROOM];
    size_t at = 0, given = 0, records = 0, count;
    while (at < len) {
        given += below(len - given + 1);
        size_t most = below(8) ? RECORDS : 1 + below(3), room = below(4) ? ROOM : 100 + below(100);
        size_t read = lis_reader_records(s, stream + at, given - at, entries, most, parts, room, &count);
        size_t end = 0;
        for (size_t k = 0; k < count; k++) {
            const lis_entry *entry = &entries[k];
            if (entry->offset != end || stream[at + entry->offset + entry->table.len] != '\r') fail("offset");
            if (entry->part + entry->table.count > room) fail("room");
            compare(other, stream + at + entry->offset, entry, parts);
            end = entry->offset + entry->table.len + 1;
        }
        if (end != read || count > most) fail("count");
        bool is_left = memchr(stream + at + read, '\r', given - at - read) != NULL;
        if (is_left && count < most && room == ROOM) fail("a record is left");
        at += read;
        records += count;
    }
    return records;
}

/* The record of a letter that begins at a place or after it. */
static const uint8_t *next_of(uint8_t letter, const uint8_t *at, const uint8_t *end) {
    while (at < end && *at != letter) at = (const uint8_t *)memchr(at, '\r', (size_t)(end - at)) + 1;
    return at;
}

/* Whether a cell means what lis_record_part answers; returns where the next one begins. */
static const uint8_t *compare_cell(const uint8_t *cell, const lis_column *column, const uint8_t *record, size_t len) {
    static const lis_delimiters by = {'|', '\\', '^', '&'};
    uint8_t alone[ROOM], plain[ROOM];
    size_t size, plain_size;
    const uint8_t *end = memchr(cell, '\r', ROOM);
    lis_status status = lis_record_part(&by, record, len, column->field, column->repeat, column->component, alone, ROOM,
                                        &size);
    if ((status == LIS_STATUS_ABSENT) != (*cell == 255)) fail("absent");
    if (status != LIS_STATUS_OK) return end + 1;
    size_t marks = *cell == 127 ? 5 : 0;
    if (marks > 0 && memcmp(cell + 1, &by, sizeof by) != 0) fail("delimiters");
    if (lis_part_decode(&by, cell + marks, (size_t)(end - cell) - marks, plain, ROOM, &plain_size) != LIS_STATUS_OK
        || plain_size != size || memcmp(plain, alone, size) != 0
        || (marks > 0) != (memchr(cell + marks, '&', (size_t)(end - cell) - marks) != NULL))
        fail("cell");
    return end + 1;
}

/* The cells of a stream's results mean what lis_record_part answers for each, and no byte after them is written. */
static size_t columns_of(lis_reader *s, const uint8_t *stream, size_t len) {
    static const lis_column wanted[] = {{4, 0, 0}, {3, 0, 3}, {5, 0, 0}, {3, 1, 0}, {3, 0, 3}, {1, 0, 0}, {99, 0, 0}};
    enum { COLUMNS = sizeof wanted / sizeof *wanted };
    lis_part parts[ROOM];
    uint8_t out[ROOM];
    const uint8_t *record = stream;
    size_t at = 0, rows = 0, count, size;
    while (at < len) {
        size_t room = below(4) ? ROOM : 700 + below(200);
        memset(out, 0xa5, sizeof out);
        size_t read = lis_reader_columns(s, stream + at, len - at, 'R', wanted, COLUMNS, parts, ROOM, out, room, &size,
                                         &count);
        if (read == 0 || size > room || (size < ROOM && out[size] != 0xa5)) fail("columns");
        const uint8_t *cell = out;
        for (size_t row = 0; row < count; row++, rows++) {
            record = next_of('R', record, stream + len);
            size_t long_as = (size_t)((const uint8_t *)memchr(record, '\r', (size_t)(stream + len - record)) - record);
            for (size_t k = 0; k < COLUMNS; k++) cell = compare_cell(cell, &wanted[k], record, long_as);
            record += long_as + 1;
        }
        if (cell != out + size) fail("size");
        at += read;
    }
    return rows;
}

/* An order with no patient can't come next. It isn't read, and lis_reader_read says why. */
static void check_refused(lis_reader *s) {
    const uint8_t *bytes = (const uint8_t *)"H|\\^&\rO|1\rL\r";
    lis_entry entries[RECORDS];
    lis_part parts[ROOM];
    lis_found found;
    size_t count;
    if (lis_reader_records(s, bytes, 12, entries, RECORDS, parts, ROOM, &count) != 6 || count != 1) fail("before it");
    if (lis_reader_records(s, bytes + 6, 6, entries, RECORDS, parts, ROOM, &count) != 0 || count != 0) fail("refused");
    if (lis_reader_read(s, bytes + 6, 3, &found) != 3 || lis_reader_read(s, bytes + 9, 1, &found) != 0) fail("read it");
    if (found.kind != LIS_FOUND_REFUSED || found.reason != LIS_REASON_NO_PARENT) fail("reason");
    if (lis_reader_records(s, bytes, 12, entries, RECORDS, parts, ROOM, &count) != 0 || count != 0) fail("after it");
    if (lis_reader_records(s, bytes + 10, 2, entries, RECORDS, parts, ROOM, &count) != 0 || count != 0) fail("an end");
}

int main(void) {
    lis_reader s = {malloc(lis_reader_size())}, other = {malloc(lis_reader_size())};
    char stream[ROOM];
    size_t records = 0, rows = 0;
    if (!s.at || !other.at) return 1;
    lis_reader_init(s.at);
    lis_reader_init(other.at);
    for (int k = 0; k < ROUNDS; k++) records += round_of(&s, &other, (const uint8_t *)stream, make(stream));
    for (int k = 0; k < ROUNDS; k++) rows += columns_of(&s, (const uint8_t *)stream, make(stream));
    if (rows < ROUNDS) fail("rows");
    check_refused(&s);
    lis_reader_end(s);
    lis_reader_end(other);
    free(s.at);
    free(other.at);
    printf("%zu records are equal\n", records);
    return 0;
}
