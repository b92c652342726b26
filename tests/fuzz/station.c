/* A stream through two stations, one by pieces and one by bytes, which must say the same, with starts, timers and
 * restarts between the pieces; and what they send through a third one, which receives it. */
#include "fuzz.h"

struct sides {
    lis_station pieces, bytes, there;
};

/* What two answers say is the same, and so is what they left. */
static void compare(struct sides *sides, const lis_answer *one, const lis_answer *other) {
    CHECK(one->is_step == other->is_step && one->send.len == other->send.len);
    CHECK(one->send.len <= LIS_LIMIT_FRAME_BYTES && memcmp(one->send.bytes, other->send.bytes, one->send.len) == 0);
    CHECK(one->step.note == other->step.note && one->step.has_text == other->step.has_text);
    CHECK(one->step.detail == other->step.detail && one->step.place == other->step.place);
    CHECK(one->is_step ? one->send.len == (one->step.reply != 0) : one->step.note == LIS_NOTE_QUIET);
    CHECK(lis_station_phase(&sides->pieces) == lis_station_phase(&sides->bytes));
    CHECK(lis_station_is_open(&sides->pieces) == lis_station_is_open(&sides->bytes));
    CHECK(lis_station_turn_seconds(&sides->pieces) == lis_station_turn_seconds(&sides->bytes));
    CHECK(lis_station_held(&sides->pieces) == lis_station_held(&sides->bytes));
    CHECK(!lis_station_is_open(&sides->pieces) || !lis_station_awaits_reply(&sides->pieces));
}

static void compare_texts(struct sides *sides) {
    size_t len = lis_station_text_len(&sides->pieces);
    CHECK(len == lis_station_text_len(&sides->bytes) && len <= LIS_LIMIT_TEXT_BYTES);
    uint8_t *one = block(len + 1), *other = block(len + 1);
    CHECK(lis_station_text(&sides->pieces, one, len) == LIS_STATUS_OK);
    CHECK(lis_station_text(&sides->bytes, other, len) == LIS_STATUS_OK && memcmp(one, other, len) == 0);
    free(one);
    free(other);
}

/* Hears bytes to their end, and gives what is sent to the third one. */
static void hear(struct sides *sides, const uint8_t *piece, size_t len) {
    lis_answer answer, other, last;
    for (size_t at = 0; at < len;) {
        size_t heard = lis_station_hear(&sides->pieces, piece + at, len - at, &answer);
        CHECK(heard > 0 && heard <= len - at);
        for (size_t i = 0; i < heard; i++) {
            lis_station_byte(&sides->bytes, piece[at + i], &other);
            CHECK(i + 1 == heard || (other.is_step && other.step.note == LIS_NOTE_QUIET));
        }
        compare(sides, &answer, &other);
        if (answer.step.has_text)
            compare_texts(sides);
        for (size_t sent = 0; sent < answer.send.len;)
            sent += lis_station_hear(&sides->there, answer.send.bytes + sent, answer.send.len - sent, &last);
        at += heard;
    }
}

static lis_status start(lis_station *station, const uint8_t *text, size_t len) {
    lis_bytes out;
    lis_place fault;
    lis_station_clear(station);
    CHECK(lis_station_add_text(station, text, len) == lis_text_check(text, len, &fault.place));
    lis_status status = lis_station_start(station, &out, &fault);
    CHECK(status != LIS_STATUS_OK || (out.len == 1 && out.bytes[0] == 5));
    return status;
}

/* Something else than bytes comes between them. */
static void interrupt(struct sides *sides, uint32_t seed, const uint8_t *text, size_t len) {
    lis_station *both[] = {&sides->pieces, &sides->bytes};
    lis_answer answers[2];
    lis_status status[2] = {LIS_STATUS_OK, LIS_STATUS_OK};
    for (int i = 0; i < 2; i++) {
        switch (seed >> 8 & 15) {
        case 0:
        case 1:
            lis_station_timer(both[i], &answers[i]);
            break;
        case 2:
        case 3:
            status[i] = start(both[i], text, len);
            break;
        case 4:
            lis_station_restart(both[i]);
            break;
        case 5:
            lis_station_close_line(both[i]);
            break;
        case 6:
            lis_station_give_up(both[i]);
            break;
        case 7:
            lis_station_ask_turn(both[i]);
            break;
        case 8:
            lis_station_set_ready(both[i], seed & 1);
            break;
        default:
            break;
        }
    }
    CHECK(status[0] == status[1]);
    if ((seed >> 8 & 15) < 2)
        compare(sides, &answers[0], &answers[1]);
}

static lis_station begun(lis_role role) {
    lis_station station = {block(lis_station_size())};
    lis_station_init(station.at);
    CHECK(lis_station_begin(&station, role, LIS_LIMIT_FRAME_TEXT) == LIS_STATUS_OK);
    return station;
}

static void end(lis_station station) {
    lis_station_end(station);
    free(station.at);
}

int LLVMFuzzerTestOneInput(const uint8_t *data, size_t size) {
    if (size < 8)
        return 0;
    input from = {data, size};
    uint32_t seed = one(&from);
    lis_role role = (lis_role)(one(&from) & 1);
    struct sides sides = {begun(role), begun(role), begun((lis_role)!role)};
    while (from.left > 0) {
        size_t count = piece_of(&seed, 31, from.left);
        uint8_t *piece = some(&from, &count);
        hear(&sides, piece, count);
        interrupt(&sides, seed, piece, count);
        free(piece);
    }
    end(sides.pieces);
    end(sides.bytes);
    end(sides.there);
    return 0;
}
