/* A stream of records by the call for a piece, in pieces and arrays of any size, against a plain loop
 * (tests/ffi/parts.h): the records that it gives are the lines of the stream, each with all its parts; where it stops,
 * lis_reader_read says why, and it goes on at the next header. */
#include "fuzz.h"

#include "../ffi/parts_check.h"

static const char *const words[] = {"H|\\^&", "\rP|1", "\rO|1|S", "\rR|1|^^^A|5", "\rL|1|N\r", "\rC|1|", "\rQ|1|^",
                                    "h!+*-", "\rS|", "|", "\\", "^", "&F&", "&X4f&", "&", "\r"};
static lis_part parts[2 * MOST_PARTS];

/* A record of a piece is the next line of the stream. */
static size_t check_entry(const lis_entry *entry, const uint8_t *line, size_t left, size_t room) {
    const uint8_t *end = memchr(line, '\r', left);
    CHECK(end != NULL && entry->table.len == (size_t)(end - line) && entry->part + entry->table.count <= room);
    CHECK((line[0] & 0xdf) == entry->letter);
    check_entries(&entry->table.delimiters, line, entry->table.len, parts + entry->part, entry->table.count, false);
    return entry->table.len + 1;
}

/* The line that was not read can't come next, and lis_reader_read says why; or it isn't whole. */
static bool is_refused(lis_reader *reader, const uint8_t *rest, size_t left) {
    const uint8_t *end = memchr(rest, '\r', left);
    lis_found found;
    if (end == NULL)
        return false;
    size_t len = (size_t)(end - rest), read = len > 0 ? lis_reader_read(reader, rest, len, &found) : 0;
    if (len == 0 || found.kind != LIS_FOUND_REFUSED) {
        CHECK(read == len);
        lis_reader_read(reader, end, 1, &found);
    }
    CHECK(found.kind == LIS_FOUND_REFUSED);
    return true;
}

/* Goes on after the line that can't come: at a line that begins with H, which is that line or a later one. */
static size_t go_on(lis_reader *reader, const uint8_t *rest, size_t left) {
    bool begins = lis_reader_resume(reader), is_first = begins;
    size_t before = lis_header_find(rest, left, &begins);
    CHECK(before == left || ((rest[before] & 0xdf) == 'H' && (before == 0 ? is_first : rest[before - 1] == '\r')));
    return before;
}

/* Reads on to a line that can't come, or to the end; how many bytes were read. */
static size_t read_on(lis_reader *reader, const uint8_t *stream, size_t len, uint32_t seed) {
    size_t most = 1 + seed % 5, done = 0, given = 0, count;
    lis_entry *entries = block(most * sizeof *entries);
    while (given < len) {
        given += piece_of(&seed, 997, len - given);
        uint8_t *piece = copy_of(stream + done, given - done);
        size_t at = 0, read;
        do {
            size_t room = MOST_PARTS + (next(&seed) >> 16) % MOST_PARTS, end = at;
            read = lis_reader_records(reader, piece + at, given - done - at, entries, most, parts, room, &count);
            CHECK(count <= most && (read > 0) == (count > 0));
            for (size_t i = 0; i < count; i++) {
                CHECK(entries[i].offset == end - at);
                end += check_entry(&entries[i], piece + end, given - done - end, room);
            }
            at += read;
            CHECK(at == end);
        } while (read > 0);
        free(piece);
        done += at;
        if (memchr(stream + done, '\r', given - done) != NULL)
            break;
    }
    free(entries);
    return done;
}

static void read_stream(const uint8_t *stream, size_t len, uint32_t seed) {
    lis_reader reader = {block(lis_reader_size())};
    size_t done = 0;
    lis_reader_init(reader.at);
    for (bool more = true; more;) {
        done += read_on(&reader, stream + done, len - done, seed);
        more = is_refused(&reader, stream + done, len - done);
        done += more ? go_on(&reader, stream + done, len - done) : 0;
    }
    lis_reader_end(reader);
    free(reader.at);
}

int LLVMFuzzerTestOneInput(const uint8_t *data, size_t size) {
    if (size < 5)
        return 0;
    uint8_t *made = block(size * 12);
    size_t len = 0;
    for (size_t i = 4; i < size; i++) {
        const char *word = words[data[i] & 15];
        if (!(data[0] & 1) && data[i] < 16) {
            memcpy(made + len, word, strlen(word));
            len += strlen(word);
        } else {
            made[len++] = data[i];
        }
    }
    uint8_t *stream = copy_of(made, len);
    free(made);
    read_stream(stream, len, data[1] | (uint32_t)data[2] << 8 | (uint32_t)data[3] << 16);
    free(stream);
    return 0;
}
