/* All parts of a record at once: tables that are known, ten thousand records against tests/ffi/parts.h, and a record of
 * 65,536 bytes in time. Prints how many things were compared. */
#include <stdio.h>
#include <stdlib.h>

static long compared;
static void fail(const char *what, int line) {
    fprintf(stderr, "line %d: %s\n", line, what);
    exit(1);
}
#define CHECK(good) ((good) ? (void)compared++ : fail(#good, __LINE__))

#include "parts_check.h"
#include <time.h>

static const lis_delimiters usual = {'|', '\\', '^', '&'};

static uint32_t next(uint32_t *seed) {
    return *seed = *seed * 1103515245u + 12345u;
}

/* Tables by hand. */
static void of_known(void) {
    static const char result[] = "r|1|^^^GLU\\^^^NA|5&F&&", header[] = "H*!+-**a+b";
    static const lis_part parts[] = {{2, 1, 2, 0, 0, 0}, {4, 0, 3, 0, 0, 0}, {5, 0, 3, 0, 1, 0}, {6, 0, 3, 0, 2, 0},
                                     {7, 3, 3, 0, 3, 0}, {11, 0, 3, 1, 0, 0}, {12, 0, 3, 1, 1, 0}, {13, 0, 3, 1, 2, 0},
                                     {14, 2, 3, 1, 3, 0}, {17, 5, 4, 0, 0, LIS_PART_ESCAPED}};
    static const lis_part declared[] = {{6, 0, 3, 0, 0, 0}, {7, 1, 4, 0, 0, 0}, {9, 1, 4, 0, 1, 0}};
    uint8_t out[5];
    size_t count;
    CHECK(lis_record_parts(&usual, (const uint8_t *)result, sizeof result - 1, given, 16, &count) == LIS_STATUS_OK);
    CHECK(count == 10 && memcmp(given, parts, sizeof parts) == 0);
    CHECK(lis_part_decode(&usual, (const uint8_t *)result + 17, 5, out, 5, &count) == LIS_STATUS_OK);
    CHECK(count == 3 && memcmp(out, "5|&", 3) == 0);
    CHECK(lis_header_parts((const uint8_t *)header, sizeof header - 1, given, 3, &count) == LIS_STATUS_OK);
    CHECK(count == 3 && memcmp(given, declared, sizeof declared) == 0);
    CHECK(lis_record_parts(&usual, (const uint8_t *)"P|\x02", 3, given, 3, &count) == LIS_STATUS_FORBIDDEN);
    CHECK(count == 0);
    CHECK(lis_record_parts(&usual, (const uint8_t *)"L", 1, given, 0, &count) == LIS_STATUS_OK && count == 0);
    static const lis_delimiters none = {'|', '|', '^', '&'};
    CHECK(lis_part_decode(&none, out, 3, out, 0, &count) == LIS_STATUS_BAD_DELIMITERS && count == 0);
}

/* A record of words that matter. */
static size_t make(uint32_t *seed, uint8_t *text) {
    static const char *const heads[] = {"H|\\^&", "h!+*-", "P", "O", "R", "L", "C", "x", ""};
    static const char *const words[] = {"|", "|", "\\", "^", "^", "&", "&F&", "&X4f7c&", "&H&", "&N&", "&S&", "&X4&",
                                        "12", "GLU", " ", "\x02", "-", "!", "+"};
    size_t len = strlen(heads[next(seed) >> 16 & 7]);
    memcpy(text, heads[*seed >> 16 & 7], len);
    for (unsigned count = next(seed) >> 16 & 31; count > 0; count--) {
        unsigned pick = (next(seed) >> 16) % (next(seed) >> 16 & 3 ? 15 : 19);
        size_t more = strlen(words[pick]);
        memcpy(text + len, words[pick], more);
        len += more;
    }
    return len;
}

static void of_any(void) {
    static uint8_t text[512];
    uint32_t seed = 1;
    long good = 0;
    for (int turn = 0; turn < 10000; turn++) {
        lis_delimiters by = {'|', '\\', '^', '&'};
        size_t count, len = make(&seed, text + 1);
        if (turn & 1 && len > 1)
            text[2] = '|';
        check_parts(&by, text + 1, len, true);
        good += parts_of(&by, text + 1, len, given, MOST_PARTS, &count) == LIS_STATUS_OK && count > 4;
    }
    CHECK(good > 1000);
}

/* Seconds for all parts of a record of delimiters. */
static void of_time(void) {
    static uint8_t text[LIS_LIMIT_RECORD_BYTES];
    size_t count;
    memset(text, '|', sizeof text);
    text[0] = 'P';
    clock_t begun = clock();
    CHECK(lis_record_parts(&usual, text, sizeof text, given, MOST_PARTS, &count) == LIS_STATUS_OK);
    CHECK(count == sizeof text - 1 && given[count - 1].field == count + 1 && given[count - 1].len == 0);
    CHECK(clock() - begun < CLOCKS_PER_SEC / 4);
}

int main(void) {
    of_known();
    of_any();
    of_time();
    printf("%ld compared\n", compared);
    return 0;
}
