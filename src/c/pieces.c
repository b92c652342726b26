/* The records of a piece of a stream in one call, with all their parts or with some; and where the next header begins.
 * Part of liblislink. The call for each record is proved, these loops are not: the tests compare them with one call for
 * each record and part. */
#include <string.h>

#include "lislink.h"

/* A record has fewer parts than bytes. So its CR is looked for only if the table may be too small. */
static bool may_not_fit(const uint8_t *bytes, size_t len, size_t room) {
    if (room >= len) return false;
    const uint8_t *end = memchr(bytes, '\r', len);
    return end && room < (size_t)(end - bytes);
}

size_t lis_reader_records(lis_reader *s, const uint8_t *bytes, size_t bytes_len, lis_entry *entries,
                          size_t entries_len, lis_part *parts, size_t parts_len, size_t *count) {
    size_t at = 0, used = 0;
    *count = 0;
    while (at < bytes_len && *count < entries_len) {
        lis_entry *entry = &entries[*count];
        if (may_not_fit(bytes + at, bytes_len - at, parts_len - used)) break;
        lis_found found;
        size_t read = lis_reader_next(s, bytes + at, bytes_len - at, &found, parts + used, parts_len - used,
                                      &entry->table);
        if (read == 0) break;
        entry->offset = at;
        entry->part = used;
        entry->fields = found.fields;
        entry->letter = found.letter;
        used += entry->table.count;
        at += read;
        ++*count;
    }
    return at;
}

/* What a row may have for a column next to the record's bytes. */
enum { CELL = 6 };

/* Whether a part comes before a column's in the text. */
static bool is_before(const lis_part *part, const lis_column *column) {
    if (part->field != column->field) return part->field < column->field;
    if (part->repeat != column->repeat) return part->repeat < column->repeat;
    return part->component < column->component;
}

/* Whether a record may have no room: in the table, or in the bytes that there are for each column. */
static bool row_may_not_fit(const uint8_t *bytes, size_t len, size_t room, size_t each) {
    return may_not_fit(bytes, len, each < CELL ? 0 : each - CELL < room ? each - CELL : room) || each < CELL;
}

/* Writes what a column has of a record; answers how many bytes it is. */
static size_t put_cell(const lis_column *column, const uint8_t *text, const lis_part *parts, const lis_table *table,
                       uint8_t *out) {
    const lis_part *end = parts + table->count;
    size_t size = 0;
    while (parts < end && is_before(parts, column)) parts++;
    if (parts == end || parts->field != column->field || parts->repeat != column->repeat
        || parts->component != column->component) {
        out[size++] = 255;
    } else {
        if (parts->flags & LIS_PART_ESCAPED) {
            out[size++] = 127;
            memcpy(out + size, &table->delimiters, sizeof table->delimiters);
            size += sizeof table->delimiters;
        }
        memcpy(out + size, text + parts->offset, parts->len);
        size += parts->len;
    }
    out[size++] = '\r';
    return size;
}

size_t lis_reader_columns(lis_reader *s, const uint8_t *bytes, size_t bytes_len, uint8_t letter,
                          const lis_column *columns, size_t columns_len, lis_part *parts, size_t parts_len,
                          uint8_t *out, size_t out_len, size_t *size, size_t *count) {
    size_t at = 0, used = 0, rows = 0;
    while (at < bytes_len) {
        lis_found found;
        lis_table table;
        const uint8_t *text = bytes + at;
        bool wanted = (text[0] & ~0x20) == letter;
        size_t each = columns_len > 0 ? (out_len - used) / columns_len : SIZE_MAX;
        if (wanted && row_may_not_fit(text, bytes_len - at, parts_len, each)) break;
        size_t read = lis_reader_next(s, text, bytes_len - at, &found, parts, wanted ? parts_len : 0, &table);
        if (read == 0) break;
        for (size_t k = 0; wanted && k < columns_len; k++)
            used += put_cell(&columns[k], text, parts, &table, out + used);
        rows += wanted;
        at += read;
    }
    *size = used;
    *count = rows;
    return at;
}

size_t lis_header_find(const uint8_t *bytes, size_t bytes_len, bool *begins) {
    for (size_t at = 0; at < bytes_len;) {
        if (*begins && (bytes[at] == 'H' || bytes[at] == 'h')) return at;
        const uint8_t *end = memchr(bytes + at, '\r', bytes_len - at);
        *begins = end != NULL;
        if (end == NULL) break;
        at = (size_t)(end - bytes) + 1;
    }
    return bytes_len;
}
