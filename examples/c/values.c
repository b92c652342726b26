/* The test and the value of each result, out of a stream of records on standard input, a piece at a time. */
#include "lislink.h"
#include <stdio.h>
#include <stdlib.h>
#include <string.h>

enum { PIECE = 4 * LIS_LIMIT_RECORD_BYTES, RECORDS = 1024, PARTS = PIECE };

static uint8_t piece[PIECE];
static lis_entry records[RECORDS];
static lis_part parts[PARTS];

/* A part of a record, printed; escapes as what they mean. */
static void print_part(const lis_entry *record, const uint8_t *text, const lis_part *part) {
    static uint8_t plain[LIS_LIMIT_RECORD_BYTES];
    const uint8_t *bytes = text + part->offset;
    size_t size = part->len;
    if ((part->flags & LIS_PART_ESCAPED) == 0)
        printf("%.*s ", (int)size, (const char *)bytes);
    else if (lis_part_decode(&record->table.delimiters, bytes, size, plain, sizeof plain, &size) == LIS_STATUS_OK)
        printf("%.*s ", (int)size, (const char *)plain);
}

/* The fourth component of field 3, which is the test, and field 4, the value. */
static void print_result(const lis_entry *record, const uint8_t *text) {
    const lis_part *part = parts + record->part, *end = part + record->table.count;
    for (; part < end; part++)
        if ((part->field == 3 && part->component == 3) || part->field == 4)
            print_part(record, text, part);
    printf("\n");
}

/* The results of the whole records in the piece; answers how many of its bytes were read. */
static size_t print_results(lis_reader *reader, size_t len) {
    size_t done = 0, read, count;
    do {
        const uint8_t *rest = piece + done;
        read = lis_reader_records(reader, rest, len - done, records, RECORDS, parts, PARTS, &count);
        for (size_t i = 0; i < count; i++)
            if (records[i].letter == 'R')
                print_result(&records[i], rest + records[i].offset);
        done += read;
    } while (read > 0);
    return done;
}

/* Whether the bytes that are left are the beginning of a record that may come; else why not. */
static bool may_come(lis_reader *reader, size_t len) {
    lis_found found;
    const uint8_t *end = memchr(piece, '\r', len);
    if (end == NULL && len <= LIS_LIMIT_RECORD_BYTES)
        return true;
    size_t read = lis_reader_read(reader, piece, len, &found);
    if (end != NULL && found.kind != LIS_FOUND_REFUSED)
        lis_reader_read(reader, piece + read, 1, &found);
    fprintf(stderr, "record %llu: %s\n", (unsigned long long)found.number, lis_reason_text(found.reason));
    return false;
}

/* Drops bytes from the front of the piece; answers how many are left. */
static size_t drop(size_t done, size_t len) {
    memmove(piece, piece + done, len - done);
    return len - done;
}

/* Prints the results of the piece; after a record that can't come it goes on at the next header, of this piece or the
 * next one. Answers how many bytes are left: the beginning of the next record. */
static size_t read_piece(lis_reader *reader, size_t len, bool *searches, bool *begins, bool *good) {
    for (;;) {
        size_t done = *searches ? lis_header_find(piece, len, begins) : 0;
        *searches = *searches && done == len;
        len = drop(done, len);
        len = drop(*searches ? 0 : print_results(reader, len), len);
        if (*searches || may_come(reader, len))
            return len;
        *good = false;
        *begins = lis_reader_resume(reader);    /* a session that broke off costs its own message alone */
        *searches = true;
    }
}

int main(void) {
    lis_reader reader = {malloc(lis_reader_size())};
    lis_found found;
    size_t left = 0, got;
    bool good = true, searches = false, begins = false;
    if (reader.at == NULL)
        return 2;
    lis_reader_init(reader.at);
    while ((got = fread(piece + left, 1, sizeof piece - left, stdin)) > 0)
        left = read_piece(&reader, left + got, &searches, &begins, &good);
    good = good && left == 0 && lis_reader_finish(&reader, &found) == LIS_STATUS_OK;
    lis_reader_end(reader);
    free(reader.at);
    return good ? 0 : 1;
}
