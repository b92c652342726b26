/* A message of one result, written record by record, in which each allocation fails in turn. */
#include "refusing_heap.h"
#include <stdio.h>
#include <string.h>

static size_t told;

/* A record: its letter, and its fields with | between them and ^ between components. */
static uint8_t try_record(lis_writer *writer, const char *words) {
    size_t field;
    uint8_t status = lis_writer_record(writer, (uint8_t)words[0]);
    for (const char *rest = words + 1; status == LIS_STATUS_OK && *rest != 0;) {
        size_t len = strcspn(++rest, "|^");
        const uint8_t *bytes = (const uint8_t *)rest;
        rest += len;
        status = *rest == '^' ? lis_writer_component(writer, bytes, len) : lis_writer_field(writer, bytes, len);
    }
    return status == LIS_STATUS_OK ? lis_writer_put(writer, &field) : status;
}

static uint8_t record(lis_writer *writer, const char *words) {
    uint8_t status = try_record(writer, words);
    if (status != LIS_STATUS_OUT_OF_MEMORY)
        return status;
    told++;
    return try_record(writer, words);
}

static bool message(lis_writer *writer) {
    static const char *const records[] = {"H|||analyzer", "P|1", "O|1|S7||^^^GLU", "R|1|^^^GLU|5.4|mmol/L", "L|1|N"};
    static const char text[] = "R|1|^^^GLU|5.4|mmol/L\r";
    uint8_t out[64];
    size_t size, field;
    if (record(writer, "R|1") != LIS_STATUS_PUT_NOT_HEADER || lis_writer_record(writer, 'x') != LIS_STATUS_BAD_LETTER)
        return false;
    for (size_t i = 0; i < 5; i++) {
        if (record(writer, records[i]) != LIS_STATUS_OK)
            return false;
        if (i == 1 && record(writer, "R|1") != LIS_STATUS_PUT_NO_PARENT)
            return false;
    }
    if (lis_writer_put(writer, &field) != LIS_STATUS_NO_RECORD || lis_writer_texts(writer) != 5)
        return false;
    return lis_writer_text(writer, 3, out, sizeof out, &size) == LIS_STATUS_OK && size == sizeof text - 1
        && memcmp(out, text, size) == 0 && lis_writer_text(writer, 3, out, 5, &size) == LIS_STATUS_TOO_SHORT
        && lis_writer_text(writer, 5, out, sizeof out, &size) == LIS_STATUS_ABSENT;
}

int main(void) {
    size_t turn = 0;
    for (bool met = true; met;) {
        refused_at = ++turn;
        calls = told = 0;
        lis_writer writer = {malloc(lis_writer_size())};
        if (writer.at == NULL)
            return 2;
        lis_writer_init(writer.at);
        bool done = message(&writer);
        met = calls >= refused_at;
        lis_writer_end(writer);
        free(writer.at);
        if (!done || live != 0 || told != met) {
            fprintf(stderr, "call %zu refused: done %d, %zu live, %zu told\n", turn, done, live, told);
            return 1;
        }
    }
    printf("%zu calls refused in turn\n", turn - 1);
    return turn < 5;
}
