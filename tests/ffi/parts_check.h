/* Compares the calls that give all parts of a record with those of parts.h: for tests/ffi/parts.c and the harness
 * tests/fuzz/parts.c, which say what CHECK does. */
#ifndef PARTS_CHECK_H
#define PARTS_CHECK_H

#include "parts.h"
#include <stdlib.h>

enum { MOST_PARTS = LIS_LIMIT_RECORD_BYTES };

static wanted_part wanted[MOST_PARTS];
static lis_part given[MOST_PARTS];

static inline bool is_header(const uint8_t *text, size_t len) {
    return len > 0 && (text[0] == 'H' || text[0] == 'h');
}

/* All parts of a text by the call that is for it. */
static inline lis_status parts_of(const lis_delimiters *by, const uint8_t *text, size_t len, lis_part *out, size_t room,
                                  size_t *count) {
    return is_header(text, len) ? lis_header_parts(text, len, out, room, count)
                                : lis_record_parts(by, text, len, out, room, count);
}

/* What an entry's bytes mean: by the call for bytes, and by the call for a place in the record. */
static inline void check_decoded(const lis_delimiters *by, const uint8_t *text, size_t len, const lis_part *part) {
    uint8_t *due = malloc(part->len + 1), *out = malloc(part->len + 1);
    const uint8_t *bytes = text + part->offset;
    size_t size = wanted_bytes(by, bytes, part->len, due), found;
    CHECK(lis_part_decode(by, bytes, part->len, out, part->len, &found) == LIS_STATUS_OK);
    CHECK(found == size && memcmp(out, due, size) == 0);
    CHECK((part->flags & LIS_PART_ESCAPED) || (size == part->len && memcmp(due, bytes, size) == 0));
    if (size > 0)
        CHECK(lis_part_decode(by, bytes, part->len, out, size - 1, &found) == LIS_STATUS_TOO_SHORT && found == 0);
    lis_status status = is_header(text, len)
        ? lis_header_part(text, len, part->field, part->repeat, part->component, out, part->len, &found)
        : lis_record_part(by, text, len, part->field, part->repeat, part->component, out, part->len, &found);
    CHECK(status == LIS_STATUS_OK && found == size && memcmp(out, due, size) == 0);
    free(due);
    free(out);
}

/* The entries of a record are those that the standard has, in their order. */
static inline void check_entries(const lis_delimiters *by, const uint8_t *text, size_t len, const lis_part *parts,
                                 size_t count, bool decode) {
    CHECK(count == wanted_parts(by, text, len, wanted));
    for (size_t i = 0; i < count; i++) {
        const lis_part *part = &parts[i];
        CHECK(part->offset == wanted[i].offset && part->len == wanted[i].len && part->field == wanted[i].field);
        CHECK(part->repeat == wanted[i].repeat && part->component == wanted[i].component);
        CHECK(part->flags == (wanted[i].escaped ? LIS_PART_ESCAPED : 0));
        if (decode)
            check_decoded(by, text, len, part);
    }
}

/* All parts of a text that is a record under these delimiters, in a table of their size, and in one that is shorter. Of
 * another text there are none. */
static inline void check_parts(const lis_delimiters *by, const uint8_t *text, size_t len, bool decode) {
    lis_record record;
    lis_delimiters declared = *by;
    size_t count, again;
    lis_status read = is_header(text, len) ? lis_header_read(text, len, &declared, &record)
                                           : lis_record_read(by, text, len, &record);
    memset(given, 0xa5, (len < 512 ? len + 1 : 1) * sizeof *given);
    lis_status status = parts_of(by, text, len, given, MOST_PARTS, &count);
    CHECK(status == read);
    if (status != LIS_STATUS_OK) {
        CHECK(count == 0 && given[0].offset == 0xa5a5a5a5);
        return;
    }
    CHECK(count < MOST_PARTS && (len > 1 ? count < len : count == 0));
    CHECK(len >= 512 || given[count].offset == 0xa5a5a5a5);
    check_entries(&declared, text, len, given, count, decode);
    if (count > 0) {
        lis_part *tight = malloc(count * sizeof *tight);
        CHECK(parts_of(by, text, len, tight, count, &again) == LIS_STATUS_OK && again == count);
        CHECK(memcmp(tight, given, count * sizeof *tight) == 0);
        memset(tight, 0xa5, count * sizeof *tight);
        CHECK(parts_of(by, text, len, tight, count - 1, &again) == LIS_STATUS_TOO_SHORT && again == count);
        CHECK(memcmp(tight, given, (count - 1) * sizeof *tight) == 0 && tight[count - 1].offset == 0xa5a5a5a5);
        free(tight);
    }
}

#endif
