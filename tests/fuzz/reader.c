/* A stream of records through a reader, at once and in pieces: what it reports is the same, and each part of each
 * record is had in a buffer of its size and in none that is shorter. The calls without a reader get the same bytes.
 * */
#include "fuzz.h"

static const char *const words[] = {"H|\\^&", "\rP|1", "\rO|1|S", "\rR|1|^^^A|5", "\rL|1|N\r", "\rC|1|", "\rQ|1|^",
                                    "\rM|", "\rS|", "|", "\\", "^", "&F&", "&X4f&", "&", "\r"};

static void add(uint64_t *sum, uint64_t more) {
    *sum = (*sum ^ more) * 1099511628211u;
}

/* The components of a repeat, or of the first that is too far; how many they are. */
static size_t add_components(lis_reader *reader, size_t field, size_t repeat, uint8_t *room, uint64_t *sum) {
    size_t component = 0, size, none;
    for (; component < 60; component++) {
        lis_status status = lis_reader_part(reader, field, repeat, component, room, LIS_LIMIT_RECORD_BYTES, &size);
        if (status != LIS_STATUS_OK) {
            CHECK(status == LIS_STATUS_ABSENT && size == 0);
            break;
        }
        for (size_t i = 0; i < size; i++)
            add(sum, room[i]);
        if (size > 0) {
            uint8_t *tight = block(size);
            CHECK(lis_reader_part(reader, field, repeat, component, tight, size, &none) == LIS_STATUS_OK);
            CHECK(none == size);
            CHECK(lis_reader_part(reader, field, repeat, component, tight, size - 1, &none) == LIS_STATUS_TOO_SHORT);
            CHECK(none == 0);
            free(tight);
        }
    }
    return component;
}

/* All parts at once, in the record's text, mean what lis_reader_part answers for each. */
static void check_table(lis_reader *reader, uint8_t *room) {
    lis_table table;
    size_t size, alone;
    lis_status counted = lis_reader_parts(reader, NULL, 0, &table);
    CHECK(counted == (table.count > 0 ? LIS_STATUS_TOO_SHORT : LIS_STATUS_OK));
    lis_part *parts = block((table.count + 1) * sizeof *parts);
    uint8_t *text = block(table.len);
    CHECK(lis_reader_parts(reader, parts, table.count, &table) == LIS_STATUS_OK);
    CHECK(lis_reader_text(reader, text, table.len, &size) == LIS_STATUS_OK && size == table.len);
    for (size_t i = 0; i < table.count && i < 60; i++) {
        const lis_part *part = &parts[i];
        uint8_t *bytes = block(part->len + 1u);
        CHECK(lis_part_decode(&table.delimiters, text + part->offset, part->len, bytes, part->len, &size)
              == LIS_STATUS_OK);
        CHECK(lis_reader_part(reader, part->field, part->repeat, part->component, room, LIS_LIMIT_RECORD_BYTES, &alone)
              == LIS_STATUS_OK);
        CHECK(alone == size && memcmp(bytes, room, size) == 0);
        free(bytes);
    }
    free(text);
    free(parts);
}

static void add_record(lis_reader *reader, const lis_found *found, uint8_t *room, uint64_t *sum) {
    size_t first = found->letter == 'H' ? 3 : 2, most = found->fields < 40 ? found->fields : 40;
    for (size_t field = 0; field < first + most + 1; field++) {
        size_t repeat = 0;
        while (repeat < 60 && add_components(reader, field, repeat, room, sum) > 0)
            repeat++;
        CHECK(repeat == 0 || (field >= first && field < first + found->fields));
    }
    check_table(reader, room);
}

/* A fault is for good, and none of the bytes count as read. */
static void add_fault(lis_reader *reader, const lis_found *found, const uint8_t *bytes, size_t len, uint64_t *sum) {
    lis_found again;
    CHECK(lis_reader_read(reader, bytes, len, &again) == 0 && again.kind == LIS_FOUND_REFUSED);
    CHECK(again.reason == found->reason && again.place == found->place && again.number == found->number);
    add(sum, found->reason | (uint64_t)found->detail << 8);
    add(sum, found->place);
    add(sum, found->number);
}

/* Reads a piece; false at a record that can't be read. */
static bool read_piece(lis_reader *reader, const uint8_t *piece, size_t len, uint8_t *room, uint64_t *sum) {
    lis_found found;
    for (size_t at = 0; at < len;) {
        size_t read = lis_reader_read(reader, piece + at, len - at, &found);
        CHECK(read <= len - at && (read == 0) == (found.kind == LIS_FOUND_REFUSED));
        if (found.kind == LIS_FOUND_REFUSED) {
            add_fault(reader, &found, piece + at, len - at, sum);
            return false;
        }
        if (found.kind == LIS_FOUND_RECORD) {
            add(sum, found.letter | (uint64_t)found.fields << 8);
            add_record(reader, &found, room, sum);
        }
        at += read;
    }
    return true;
}

/* A sum over all that is reported. Without a seed all bytes come at once. */
static uint64_t sum_of(const uint8_t *stream, size_t len, uint32_t seed) {
    lis_reader reader = {block(lis_reader_size())};
    uint8_t *room = block(LIS_LIMIT_RECORD_BYTES);
    uint64_t sum = 1469598103934665603u;
    bool good = true;
    lis_found found;
    lis_reader_init(reader.at);
    for (size_t done = 0; done < len && good;) {
        size_t count = seed != 0 ? piece_of(&seed, 61, len - done) : len - done;
        uint8_t *piece = copy_of(stream + done, count);
        good = read_piece(&reader, piece, count, room, &sum);
        free(piece);
        done += count;
    }
    lis_status status = lis_reader_finish(&reader, &found);
    CHECK(good || status == LIS_STATUS_UNFINISHED);
    add(&sum, (uint64_t)status | (uint64_t)found.reason << 8);
    lis_reader_end(reader);
    free(reader.at);
    free(room);
    return sum;
}

/* The calls without a reader: a part is read only of a record. */
static void read_alone(const uint8_t *data, const uint8_t *text, size_t len) {
    lis_delimiters delimiters = {data[1], data[2], data[3], data[0]};
    size_t field = data[1] & 15, repeat = data[2] & 3, component = data[3] & 3, size;
    lis_record record;
    uint8_t *room = block(len + 1);
    for (int turn = 0; turn < 2; turn++) {
        lis_status read = lis_record_read(&delimiters, text, len, &record);
        lis_status part = lis_record_part(&delimiters, text, len, field, repeat, component, room, len, &size);
        CHECK(read == LIS_STATUS_OK ? part == LIS_STATUS_OK || part == LIS_STATUS_ABSENT : part == read);
        CHECK(size <= len && (read == LIS_STATUS_OK || (record.letter == 0 && record.fields == 0)));
        read = lis_header_read(text, len, &delimiters, &record);
        part = lis_header_part(text, len, field, repeat, component, room, len, &size);
        CHECK(read == LIS_STATUS_OK ? part == LIS_STATUS_OK || part == LIS_STATUS_ABSENT : part == read);
        CHECK(read != LIS_STATUS_OK || record.letter == 'H');
    }
    free(room);
}

int LLVMFuzzerTestOneInput(const uint8_t *data, size_t size) {
    if (size < 5)
        return 0;
    uint8_t *made = block(size * 12);
    size_t len = 0;
    for (size_t i = 4; i < size; i++) {
        const char *word = words[data[i] & 15];
        if (!(data[0] & 1) && data[i] < 16) {
            memcpy(made + len, word, strlen(word));
            len += strlen(word);
        } else {
            made[len++] = data[i];
        }
    }
    uint8_t *stream = copy_of(made, len);
    free(made);
    uint32_t seed = 1u | (uint32_t)data[1] << 8 | (uint32_t)data[2] << 16;
    CHECK(sum_of(stream, len, 0) == sum_of(stream, len, seed));
    read_alone(data, stream, len);
    free(stream);
    return 0;
}
