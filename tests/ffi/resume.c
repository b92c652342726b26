/* A reader that goes on at the next header after a message that can't be read, text by text; and headers in pieces of
 * any length. Prints how many things were compared. */
#include "lislink.h"
#include <stdio.h>
#include <stdlib.h>
#include <string.h>

/* Two sessions that broke off, one of them after its first text; a record and a header that can't be read. */
static const char *const texts[] = {"H|\\^&\r", "P|1\r", "L|1\r", "H|\\^&\r", "P|2\r", "O|1\r", "H|\\^&\r", "H|\\^&\r",
                                    "P|3\r", "X|1\r", "L|1\r", "H||||\r", "P|4\r", "h|\\^&\r", "P|5\r", "L|1\r"};
enum { TEXTS = sizeof texts / sizeof *texts };
/* The records that are read, by their letters, and a fault as its reason. */
static const char wanted[] = "HPLHPO4H4HP1" "1" "HPL";

static int compared;

static void same(unsigned long long found, unsigned long long wants, int at) {
    compared++;
    if (found != wants) {
        fprintf(stderr, "line %d: %llu, wanted %llu\n", at, found, wants);
        exit(1);
    }
}
#define SAME(found, wanted) same((found), (wanted), __LINE__)

/* What is found is noted, and counted. */
static char notes[64];
static size_t noted;

static void note(const lis_found *found) {
    if (found->kind == LIS_FOUND_RECORD)
        notes[noted++] = (char)found->letter;
    if (found->kind == LIS_FOUND_REFUSED)
        notes[noted++] = (char)('0' + found->reason);
}

/* Each text by itself, as they are kept. */
static void text_by_text(lis_reader *reader) {
    bool searches = false, begins = false;
    for (size_t i = 0; i < TEXTS; i++) {
        const uint8_t *text = (const uint8_t *)texts[i];
        size_t len = strlen(texts[i]), at = 0;
        while (at < len) {
            lis_found found = {0};
            size_t before = searches ? lis_header_find(text + at, len - at, &begins) : 0;
            searches = searches && before == len - at;
            at += before;
            if (!searches)
                at += lis_reader_read(reader, text + at, len - at, &found);
            note(&found);
            if (found.kind == LIS_FOUND_REFUSED) {
                begins = lis_reader_resume(reader);
                searches = true;
                at = 0;    /* the record that can't be read, from its first byte */
            }
        }
    }
}

/* Headers in pieces of a length: the same as in one. */
static void in_pieces(const uint8_t *bytes, size_t len, bool at_first) {
    bool begins = at_first;
    size_t whole = lis_header_find(bytes, len, &begins);
    SAME(whole <= len, true);
    for (size_t size = 1; size <= len; size++) {
        size_t at = 0, found = 0, piece = 0;
        begins = at_first;
        do {
            at += found;
            piece = len - at < size ? len - at : size;
            found = lis_header_find(bytes + at, piece, &begins);
        } while (found == piece && at + found < len);
        SAME(at + found, whole);
    }
}

int main(void) {
    lis_reader reader = {malloc(lis_reader_size())};
    lis_found found;
    bool begins = true;
    uint8_t joined[256];
    size_t len = 0;
    if (reader.at == NULL)
        return 2;
    lis_reader_init(reader.at);
    SAME(lis_reader_resume(&reader), false);    /* without a fault too it is as after _init */
    text_by_text(&reader);
    SAME(noted, sizeof wanted - 1);
    SAME(memcmp(notes, wanted, noted), 0);
    SAME(lis_reader_finish(&reader, &found), LIS_STATUS_OK);
    lis_reader_end(reader);
    free(reader.at);
    for (size_t i = 0; i < TEXTS; i++) {
        memcpy(joined + len, texts[i], strlen(texts[i]));
        len += strlen(texts[i]);
    }
    for (size_t at = 0; at <= len; at++) {
        in_pieces(joined + at, len - at, false);
        in_pieces(joined + at, len - at, true);
    }
    SAME(lis_header_find(NULL, 0, &begins), 0);
    SAME(begins, true);
    printf("%d compared\n", compared);
    return 0;
}
