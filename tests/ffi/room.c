/* Room that was reserved lasts: a receiver and a station take no memory for texts that are no longer. Nor does a receiver
 * without it once two texts were delivered. A message is read as places without any. Counts the calls of the heap. */
#include "../../examples/c/refusing_heap.h"
#include <stdio.h>
#include <string.h>

/* The link bytes of a frame with a text of 200 bytes. */
static size_t frame(uint8_t *out, unsigned number) {
    uint8_t sum = 0;
    out[0] = 2;
    out[1] = (uint8_t)('0' + number % 8);
    memset(out + 2, 'a', 199);
    out[201] = '\r';
    out[202] = 3;
    for (size_t at = 1; at <= 202; at++)
        sum = (uint8_t)(sum + out[at]);
    snprintf((char *)out + 203, 3, "%02X", sum);
    out[205] = '\r';
    out[206] = '\n';
    return 207;
}

/* How many texts of a session are delivered, from the frame of one number to that before another. */
static unsigned hears(lis_receiver *receiver, unsigned from, unsigned to) {
    uint8_t bytes[207];
    unsigned texts = 0;
    for (unsigned number = from; number < to; number++) {
        size_t len = frame(bytes, number);
        for (size_t heard = 0; heard < len;) {
            lis_step step;
            heard += lis_receiver_hear(receiver, bytes + heard, len - heard, &step);
            texts += step.has_text && step.reply == 6 && lis_receiver_text_len(receiver) == 200;
        }
    }
    return texts;
}

/* The same of a station. */
static unsigned station_hears(lis_station *station, unsigned from, unsigned to) {
    uint8_t bytes[207];
    unsigned texts = 0;
    for (unsigned number = from; number < to; number++) {
        size_t len = frame(bytes, number);
        for (size_t heard = 0; heard < len;) {
            lis_answer answer;
            heard += lis_station_hear(station, bytes + heard, len - heard, &answer);
            texts += answer.step.has_text && answer.step.reply == 6 && lis_station_text_len(station) == 200;
        }
    }
    return texts;
}

/* Prints the calls of the heap that a station makes for texts, of which it has room for one. */
static void of_station(void) {
    void *at = aligned_alloc(lis_station_align(), lis_station_size());
    const uint8_t enq = 5;
    lis_station station = {at};
    lis_answer answer;
    lis_station_init(at);
    if (lis_station_reserve(&station, 200) != LIS_STATUS_OK || lis_station_reserve(&station, 100) != LIS_STATUS_OK)
        return;
    size_t before = calls;
    lis_station_hear(&station, &enq, 1, &answer);
    unsigned heard = station_hears(&station, 1, 500);
    printf("a station: %u texts, %zu calls of the heap\n", heard, calls - before);
    lis_station_end(station);
    free(at);
}

/* How many records a message of 1,000 results has, read as places. */
static size_t records(void) {
    static char text[32000];
    static lis_record_place places[2000];
    size_t len = (size_t)snprintf(text, sizeof text, "H|\\^&\rP|1\rO|1\r");
    for (int number = 1; number <= 1000; number++)
        len += (size_t)snprintf(text + len, sizeof text - len, "R|%d|^^^GLU|5.4\r", number);
    len += (size_t)snprintf(text + len, sizeof text - len, "L|1\r");
    lis_message message;
    lis_found found;
    bool good = lis_message_places((uint8_t *)text, len, places, 2000, &message, &found) == LIS_STATUS_OK;
    return good && message.len == len ? message.count : 0;
}

/* Prints the calls of the heap that a receiver makes for texts, of which it has room for one. */
static void of_reserved(void) {
    void *at = aligned_alloc(lis_receiver_align(), lis_receiver_size());
    const uint8_t enq = 5;
    lis_receiver receiver = {at};
    lis_step step;
    lis_receiver_init(at);
    if (lis_receiver_reserve(&receiver, 200) != LIS_STATUS_OK)
        return;
    size_t before = calls;
    lis_receiver_hear(&receiver, &enq, 1, &step);
    unsigned heard = hears(&receiver, 1, 500);
    printf("with room: %u texts, %zu calls of the heap\n", heard, calls - before);
    lis_receiver_end(receiver);
    free(at);
}

int main(void) {
    void *at = aligned_alloc(lis_receiver_align(), lis_receiver_size());
    const uint8_t enq = 5;
    lis_receiver receiver = {at};
    lis_step step;
    lis_receiver_init(at);
    lis_receiver_hear(&receiver, &enq, 1, &step);
    unsigned first = hears(&receiver, 1, 3);
    size_t before = calls;
    unsigned more = hears(&receiver, 3, 500);
    printf("%u texts, %zu calls of the heap for the last %u\n", first + more, calls - before, more);
    if (lis_receiver_reserve(&receiver, 400) != LIS_STATUS_OK)
        return 1;
    before = calls;
    more = hears(&receiver, 500, 600);
    printf("%u texts, %zu calls of the heap\n", more, calls - before);
    of_reserved();
    before = calls;
    size_t read = records();
    printf("%zu records, %zu calls of the heap\n", read, calls - before);
    lis_receiver_end(receiver);
    free(at);
    of_station();
    return live != 0;
}
