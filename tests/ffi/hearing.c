/* A receiver or a station hears sessions of ten frames each: hearing KIND CAREFUL SIZE. The kind is 'receiver' or
 * 'station', 1 is careful and 0 is not, and each frame's text has so many bytes. test_hearing.py counts the
 * instructions of it. Prints how many texts were complete. */
#include "lislink.h"
#include <stdio.h>
#include <stdlib.h>
#include <string.h>

enum { SESSIONS = 400, FRAMES = 10, EACH = FRAMES * LIS_LIMIT_FRAME_BYTES + 2 };

static uint8_t line[SESSIONS * EACH];

/* ENQ, frames of one text, EOT. */
static size_t put_session(uint8_t *out, size_t size) {
    uint8_t text[LIS_LIMIT_FRAME_TEXT];
    size_t len = 0, place;
    lis_bytes frame;
    memset(text, 'a', sizeof text);
    out[len++] = 5;
    for (unsigned number = 1; number <= FRAMES; number++) {
        if (lis_frame_write((uint8_t)(number & 7), number == FRAMES, text, size, &frame, &place) != LIS_STATUS_OK)
            abort();
        memcpy(out + len, frame.bytes, frame.len);
        len += frame.len;
    }
    out[len++] = 4;
    return len;
}

static unsigned receive(bool careful, size_t len) {
    lis_receiver receiver = {malloc(lis_receiver_size())};
    lis_step step;
    unsigned texts = 0;
    lis_receiver_init(receiver.at);
    lis_receiver_set_careful(&receiver, careful);
    for (size_t at = 0; at < len; texts += step.has_text)
        at += lis_receiver_hear(&receiver, line + at, len - at, &step);
    lis_receiver_end(receiver);
    free(receiver.at);
    return texts;
}

static unsigned receive_at_station(bool careful, size_t len) {
    lis_station station = {malloc(lis_station_size())};
    lis_answer answer;
    unsigned texts = 0;
    lis_station_init(station.at);
    lis_station_set_careful(&station, careful);
    for (size_t at = 0; at < len; texts += answer.step.has_text)
        at += lis_station_hear(&station, line + at, len - at, &answer);
    lis_station_end(station);
    free(station.at);
    return texts;
}

int main(int count, char **words) {
    size_t len = 0;
    if (count != 4)
        return 2;
    for (int i = 0; i < SESSIONS; i++)
        len += put_session(line + len, (size_t)atoi(words[3]));
    bool careful = words[2][0] == '1';
    printf("%u\n", words[1][0] == 'r' ? receive(careful, len) : receive_at_station(careful, len));
    return 0;
}
