/* The writer's calls with any bytes in any order; each text that was put is read back as one record by a reader. */
#include "fuzz.h"

enum { ROOM = LIS_LIMIT_RECORD_BYTES + 1 };

typedef lis_status putting(lis_writer *, const uint8_t *, size_t);

static void part(lis_writer *writer, input *from, putting *put, size_t most) {
    size_t len = one(from) % most;
    uint8_t *bytes = some(from, &len);
    lis_status status = put(writer, bytes, len);
    CHECK(status == LIS_STATUS_OK || status == LIS_STATUS_NO_RECORD);
    free(bytes);
}

static void put(lis_writer *writer) {
    size_t before = lis_writer_texts(writer), field;
    lis_status status = lis_writer_put(writer, &field);
    CHECK(status != LIS_STATUS_OUT_OF_MEMORY && lis_writer_texts(writer) == before + (status == LIS_STATUS_OK));
    CHECK((status == LIS_STATUS_FORBIDDEN) == (field != 0));
}

static void call(lis_writer *writer, input *from, uint8_t *room) {
    uint8_t op = one(from);
    lis_status status;
    size_t size;
    switch (op % 10) {
    case 0:
        if (op > 200) {
            lis_delimiters delimiters = {one(from), one(from), one(from), one(from)};
            status = lis_writer_start(writer, &delimiters);
            CHECK(status == LIS_STATUS_OK ? lis_writer_texts(writer) == 0 : status == LIS_STATUS_BAD_DELIMITERS);
        }
        break;
    case 1:
    case 2:
        status = lis_writer_record(writer, (uint8_t)"HPORCQMSLx"[one(from) % 10]);
        CHECK(status == LIS_STATUS_OK || status == LIS_STATUS_BAD_LETTER);
        break;
    case 3:
        part(writer, from, op > 200 ? lis_writer_repeat : lis_writer_component, 256);
        break;
    case 4:
    case 5:
    case 6:
        part(writer, from, lis_writer_field, 40);
        break;
    case 7:
    case 8:
        put(writer);
        break;
    default:
        status = lis_writer_text(writer, one(from), room, one(from), &size);
        CHECK(status == LIS_STATUS_OK || size == 0);
        break;
    }
}

/* A text is one record for a reader. */
static void read_back(lis_reader *reader, const uint8_t *text, size_t len) {
    size_t found = 0;
    lis_found it;
    for (size_t at = 0; at < len;) {
        size_t read = lis_reader_read(reader, text + at, len - at, &it);
        CHECK(it.kind != LIS_FOUND_REFUSED && read > 0);
        found += it.kind == LIS_FOUND_RECORD;
        at += read;
    }
    CHECK(found == 1);
}

int LLVMFuzzerTestOneInput(const uint8_t *data, size_t size) {
    input from = {data, size};
    lis_writer writer = {block(lis_writer_size())};
    lis_reader reader = {block(lis_reader_size())};
    uint8_t *room = block(ROOM);
    size_t len, none;
    lis_writer_init(writer.at);
    lis_reader_init(reader.at);
    while (from.left > 0)
        call(&writer, &from, room);
    for (size_t place = 0; place < lis_writer_texts(&writer); place++) {
        CHECK(lis_writer_text(&writer, place, room, ROOM, &len) == LIS_STATUS_OK && len > 0 && room[len - 1] == '\r');
        CHECK(lis_writer_text(&writer, place, room, len - 1, &none) == LIS_STATUS_TOO_SHORT);
        uint8_t *text = copy_of(room, len);
        read_back(&reader, text, len);
        free(text);
    }
    CHECK(lis_writer_text(&writer, lis_writer_texts(&writer), room, ROOM, &len) == LIS_STATUS_ABSENT);
    lis_reader_end(reader);
    lis_writer_end(writer);
    free(reader.at);
    free(writer.at);
    free(room);
    return 0;
}
