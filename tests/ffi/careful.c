/* One damaged byte of a frame, at each place and to each byte, at a receiver and at a station: as the profile has it,
 * 40 of 10,200 are acknowledged and not taken; heard carefully, none is. And the noise. Prints how many things were
 * compared. */
#include "lislink.h"
#include <stdio.h>
#include <stdlib.h>
#include <string.h>

enum { STX = 2, EOT = 4, ENQ = 5, ACK = 6, NAK = 21, LEN = 40 };

static const char TEXT[] = "R|1|^^^GLU|5.4|mmol/L||N||F||||E\r";
static int compared;

static void same(unsigned long long found, unsigned long long wanted, int at) {
    compared++;
    if (found != wanted) {
        fprintf(stderr, "line %d: %llu, wanted %llu\n", at, found, wanted);
        exit(1);
    }
}
#define SAME(found, wanted) same((found), (wanted), __LINE__)

static void put_frame(uint8_t *out) {
    uint8_t sum = 0;
    out[0] = STX;
    out[1] = '1';
    memcpy(out + 2, TEXT, sizeof TEXT - 1);
    out[LEN - 5] = 3;
    for (int at = 1; at <= LEN - 5; at++)
        sum = (uint8_t)(sum + out[at]);
    snprintf((char *)out + LEN - 4, 5, "%02X\r", sum);
    out[LEN - 1] = '\n';
}

/* An end that hears: a receiver or a station, in pieces of so many bytes. */
typedef struct ears {
    lis_receiver receiver;
    lis_station station;
    bool is_station;
    size_t piece;
    bool is_long;
} ears;

static lis_step heard(ears *it, const uint8_t *bytes, size_t len, size_t *count) {
    lis_step step;
    lis_answer answer;
    if (!it->is_station && it->piece == 1)
        return *count = 1, lis_receiver_byte(&it->receiver, bytes[0], &step), step;
    if (!it->is_station)
        return *count = lis_receiver_hear(&it->receiver, bytes, len, &step), step;
    if (it->piece == 1)
        *count = 1, lis_station_byte(&it->station, bytes[0], &answer);
    else
        *count = lis_station_hear(&it->station, bytes, len, &answer);
    if (!answer.is_step || (answer.send.len > 0 && answer.send.bytes[0] != answer.step.reply))
        fprintf(stderr, "no step of the receiver\n"), exit(1);
    return answer.step;
}

/* Whether ACK is a reply to these bytes, and their text isn't the frame's. */
static bool is_lost(ears *it, const uint8_t *bytes, size_t len) {
    bool is_acknowledged = false, is_kept = false;
    for (size_t at = 0, count = 0; at < len; at += count) {
        size_t left = it->piece && len - at > it->piece ? it->piece : len - at;
        lis_step step = heard(it, bytes + at, left, &count);
        uint8_t text[LEN];
        is_acknowledged |= step.reply == ACK;
        if (step.has_text)
            is_kept = (it->is_station ? lis_station_text(&it->station, text, sizeof text)
                                      : lis_receiver_text(&it->receiver, text, sizeof text)) == LIS_STATUS_OK
                      && memcmp(text, TEXT, sizeof TEXT - 1) == 0;
    }
    return is_acknowledged && !is_kept;
}

static void begin_session(ears *it) {
    size_t count;
    uint8_t enq = ENQ;
    it->is_station ? lis_station_restart(&it->station) : lis_receiver_restart(&it->receiver);
    SAME(heard(it, &enq, 1, &count).reply, ACK);
}

static uint64_t noise_of(const ears *it) {
    return it->is_station ? lis_station_noise(&it->station) : lis_receiver_noise(&it->receiver);
}

/* Of all changes; or, where each takes long, of those to ENQ and to STX. */
static unsigned lost_of(ears *it) {
    uint8_t frame[LEN];
    unsigned lost = 0;
    for (int at = 0; at < LEN; at++) {
        put_frame(frame);
        uint8_t was = frame[at];
        for (int byte = 0; byte < 256; byte++) {
            if (byte == was || (it->is_long && byte != ENQ && byte != STX))
                continue;
            frame[at] = (uint8_t)byte;
            begin_session(it);
            lost += is_lost(it, frame, LEN);
        }
    }
    return lost;
}

/* An ENQ in a frame ends the session, and the next one begins it; a frame that begins in a frame is rejected. */
static void of_noise(ears *it) {
    static const uint8_t in_a_frame[] = {STX, '1', 'H', ENQ}, again[] = {ENQ}, within[] = {STX, '1', STX};
    uint8_t frame[LEN];
    size_t count;
    uint64_t before = noise_of(it);
    put_frame(frame);
    begin_session(it);
    SAME(is_lost(it, in_a_frame, sizeof in_a_frame), false);
    SAME(noise_of(it), before + 1);
    lis_step step = heard(it, again, 1, &count);
    SAME(step.note, LIS_NOTE_OPENED);
    SAME(is_lost(it, within, sizeof within), false);
    SAME(noise_of(it), before + 2);
    SAME(is_lost(it, frame + 1, LEN - 1), false);
    SAME(is_lost(it, frame, LEN), false);
    SAME(it->is_station ? lis_station_accepted(&it->station) : lis_receiver_accepted(&it->receiver), 1);
    SAME(noise_of(it), before + 2);
}

static void set_careful(ears *it, bool careful) {
    if (it->is_station)
        lis_station_set_careful(&it->station, careful);
    else
        lis_receiver_set_careful(&it->receiver, careful);
}

static void of_ears(ears *it) {
    SAME(lost_of(it), 40);
    SAME(noise_of(it), 0);
    set_careful(it, true);
    SAME(lost_of(it), 0);
    of_noise(it);
    uint64_t noise = noise_of(it);
    SAME(noise > 40, true);
    set_careful(it, false);
    SAME(lost_of(it), 40);
    SAME(noise_of(it), noise);
}

int main(void) {
    lis_receiver receiver = {malloc(lis_receiver_size())};
    lis_station station = {malloc(lis_station_size())};
    static const size_t pieces[] = {0, 1, 7}, limits[] = {LIS_LIMIT_FRAME_TEXT, LIS_LIMIT_LONG_FRAME_TEXT};
    lis_receiver_init(receiver.at);
    lis_station_init(station.at);
    for (int limit = 0; limit < 2; limit++)
        for (int piece = 0; piece < 3; piece++) {
            ears of_receiver = {receiver, station, false, pieces[piece], limit == 1};
            ears of_station = {receiver, station, true, pieces[piece], limit == 1};
            SAME(lis_receiver_set_limit(&receiver, limits[limit]), LIS_STATUS_OK);
            of_ears(&of_receiver);
            SAME(lis_receiver_set_text_limit(&receiver, 500), LIS_STATUS_OK);
            set_careful(&of_receiver, true);
            SAME(lost_of(&of_receiver), 0);
            of_noise(&of_receiver);
            set_careful(&of_receiver, false);
            SAME(lis_station_begin(&station, LIS_ROLE_COMPUTER, limits[limit]), LIS_STATUS_OK);
            of_ears(&of_station);
        }
    /* What makes an end new leaves it careful, and it has heard no noise then. */
    ears last = {receiver, station, true, 0, false};
    set_careful(&last, true);
    SAME(lis_station_begin(&station, LIS_ROLE_ANALYZER, LIS_LIMIT_FRAME_TEXT), LIS_STATUS_OK);
    SAME(noise_of(&last), 0);
    SAME(lost_of(&last), 0);
    /* While a reply is awaited nothing is noise. */
    lis_bytes out;
    lis_place place;
    lis_answer answer;
    lis_station_restart(&station);
    SAME(lis_station_add_text(&station, (const uint8_t *)TEXT, sizeof TEXT - 1), LIS_STATUS_OK);
    SAME(lis_station_start(&station, &out, &place), LIS_STATUS_OK);
    uint64_t noise = lis_station_noise(&station);
    static const uint8_t contention[] = {ENQ, ENQ};
    SAME(lis_station_hear(&station, contention, 2, &answer), 1);
    SAME(answer.is_step, false);
    SAME(lis_station_noise(&station), noise);
    lis_receiver_end(receiver);
    lis_station_end(station);
    free(receiver.at);
    free(station.at);
    printf("%d compared\n", compared);
    return 0;
}
