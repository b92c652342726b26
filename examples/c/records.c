/* The values of results out of a stream of records that comes in pieces, in which each allocation fails in turn: that
 * is reported with its record, nothing leaks, and the stream can be read from its beginning. */
#include "refusing_heap.h"
#include <stdio.h>
#include <string.h>

static const char stream[] = "H|\\^&|||Analyzer\rP|1\rO|1|S7\rR|1|^^^GLU|5.4|mmol/L\rR|2|^^^NA|139|mmol/L\rL|1|N\r";

enum outcome { READ, MEMORY_REFUSED, WRONG };

/* Reads the stream, five bytes at a time, and joins the values of its results. */
static enum outcome values_of(lis_reader *reader, char *values, size_t room) {
    lis_found found;
    size_t count = 0;
    values[0] = 0;
    for (size_t done = 0; done < sizeof stream - 1;) {
        size_t piece = sizeof stream - 1 - done < 5 ? sizeof stream - 1 - done : 5;
        done += lis_reader_read(reader, (const uint8_t *)stream + done, piece, &found);
        if (found.kind == LIS_FOUND_REFUSED)
            return found.reason == LIS_REASON_OUT_OF_MEMORY && found.number == count + 1 ? MEMORY_REFUSED : WRONG;
        count += found.kind == LIS_FOUND_RECORD;
        if (found.kind == LIS_FOUND_RECORD && found.letter == 'R') {
            uint8_t value[16];
            size_t size;
            if (lis_reader_part(reader, 4, 0, 0, value, sizeof value, &size) != LIS_STATUS_OK)
                return WRONG;
            size_t used = strlen(values);
            snprintf(values + used, room - used, "%.*s ", (int)size, (const char *)value);
        }
    }
    return count == 6 && lis_reader_finish(reader, &found) == LIS_STATUS_OK ? READ : WRONG;
}

int main(void) {
    size_t turn = 0;
    for (bool met = true; met;) {
        char values[64];
        refused_at = ++turn;
        calls = 0;
        lis_reader reader = {malloc(lis_reader_size())};
        if (reader.at == NULL)
            return 2;
        lis_reader_init(reader.at);
        enum outcome outcome = values_of(&reader, values, sizeof values);
        met = calls >= refused_at;
        bool told = (outcome == MEMORY_REFUSED) == met;
        if (outcome == MEMORY_REFUSED) {
            lis_reader_end(reader);
            lis_reader_init(reader.at);
            outcome = values_of(&reader, values, sizeof values);
        }
        lis_reader_end(reader);
        free(reader.at);
        if (outcome != READ || !told || live != 0 || strcmp(values, "5.4 139 ") != 0) {
            fprintf(stderr, "call %zu refused: outcome %d, %zu live, values %s\n", turn, (int)outcome, live, values);
            return 1;
        }
    }
    printf("%zu calls refused in turn\n", turn - 1);
    return turn < 2;
}
