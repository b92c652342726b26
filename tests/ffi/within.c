/* A receiver's own limit on a text: what is within it is heard as without one, and a frame that goes beyond is answered
 * NAK, in its turn alone, and takes nothing. With both limits on a frame. Texts in a buffer that was lent: a receiver and
 * a station ask for no memory, and reject what the buffer has no room for. Prints how many things were compared. */
#include <stdio.h>
#include <stdlib.h>
#include <string.h>

/* How often the heap was asked. */
static unsigned long asked;

static void *counted(size_t size) {
    asked++;
    return malloc(size);
}

static void *counted_again(void *p, size_t size) {
    asked++;
    return realloc(p, size);
}

#define malloc counted
#define realloc counted_again
#include "../../src/c/heap.c"
#undef malloc
#undef realloc

enum { ENQ = 5, ACK = 6, NAK = 21, EOT = 4, ETX = 3, ETB = 23, ROOM = 2048 };

static int compared;

static void same(unsigned long long found, unsigned long long wanted, int at) {
    compared++;
    if (found != wanted) {
        fprintf(stderr, "line %d: %llu, wanted %llu\n", at, found, wanted);
        exit(1);
    }
}
#define SAME(found, wanted) same((found), (wanted), __LINE__)

static lis_receiver begun(size_t limit) {
    lis_receiver receiver = {malloc(lis_receiver_size())};
    lis_receiver_init(receiver.at);
    SAME(lis_receiver_set_limit(&receiver, limit), LIS_STATUS_OK);
    return receiver;
}

static void end(lis_receiver *receiver) {
    lis_receiver_end(*receiver);
    free(receiver->at);
}

/* The step of the last of these bytes, all of which are heard. */
static lis_step heard(lis_receiver *receiver, const uint8_t *bytes, size_t len) {
    lis_step step = {0};
    for (size_t at = 0; at < len;) {
        size_t count = lis_receiver_hear(receiver, bytes + at, len - at, &step);
        at += count;
        if (count == 0 || (step.note != LIS_NOTE_QUIET && at < len))
            fprintf(stderr, "byte %zu: note %d\n", at, step.note), exit(1);
    }
    return step;
}

static lis_step control(lis_receiver *receiver, uint8_t byte) { return heard(receiver, &byte, 1); }

/* A frame with a text of so many bytes. Returns its length. */
static size_t put_frame(uint8_t *bytes, unsigned number, size_t len, uint8_t ending) {
    uint8_t sum = 0;
    bytes[0] = 2;
    bytes[1] = (uint8_t)('0' + number % 8);
    memset(bytes + 2, 'a', len);
    bytes[len + 2] = ending;
    for (size_t at = 1; at <= len + 2; at++)
        sum = (uint8_t)(sum + bytes[at]);
    snprintf((char *)bytes + len + 3, 3, "%02X", sum);
    bytes[len + 5] = '\r';
    bytes[len + 6] = '\n';
    return len + 7;
}

static lis_step frame(lis_receiver *receiver, unsigned number, size_t len, uint8_t ending) {
    uint8_t bytes[ROOM];
    return heard(receiver, bytes, put_frame(bytes, number, len, ending));
}

static void is(lis_step step, uint8_t reply, lis_note note, int at) {
    same(step.reply, reply, at);
    same(step.note, note, at);
}
#define IS(step, reply, note) is((step), (reply), (note), __LINE__)

static void of_limit(size_t limit) {
    lis_receiver receiver = begun(limit);
    SAME(lis_receiver_set_text_limit(&receiver, LIS_LIMIT_TEXT_BYTES + 1), LIS_STATUS_TOO_LONG);
    SAME(lis_receiver_set_text_limit(&receiver, 300), LIS_STATUS_OK);
    IS(control(&receiver, ENQ), ACK, LIS_NOTE_OPENED);
    IS(frame(&receiver, 1, 200, ETB), ACK, LIS_NOTE_ACCEPTED);
    IS(frame(&receiver, 2, 101, ETX), NAK, LIS_NOTE_TOO_LONG);
    SAME(lis_receiver_held(&receiver), 200);
    IS(frame(&receiver, 2, 101, ETB), NAK, LIS_NOTE_TOO_LONG);
    IS(frame(&receiver, 1, 200, ETB), ACK, LIS_NOTE_DUPLICATE);
    IS(frame(&receiver, 3, 101, ETX), NAK, LIS_NOTE_OUT_OF_TURN);
    lis_step last = frame(&receiver, 2, 100, ETX);
    IS(last, ACK, LIS_NOTE_ACCEPTED);
    SAME(last.has_text && lis_receiver_text_len(&receiver) == 300, true);
    lis_receiver_set_room(&receiver, false);
    IS(frame(&receiver, 3, 10, ETX), NAK, LIS_NOTE_NO_ROOM);
    IS(frame(&receiver, 3, 61, ETX), NAK, LIS_NOTE_NO_ROOM);
    lis_receiver_restart(&receiver);
    SAME(lis_receiver_set_text_limit(&receiver, 0), LIS_STATUS_OK);
    IS(frame(&receiver, 1, 1, ETX), 0, LIS_NOTE_QUIET);
    IS(control(&receiver, ENQ), ACK, LIS_NOTE_OPENED);
    IS(frame(&receiver, 1, 1, ETX), NAK, LIS_NOTE_TOO_LONG);
    IS(frame(&receiver, 1, 0, ETX), ACK, LIS_NOTE_ACCEPTED);
    SAME(lis_receiver_set_text_limit(&receiver, LIS_LIMIT_TEXT_BYTES), LIS_STATUS_OK);
    IS(frame(&receiver, 2, 240, ETX), ACK, LIS_NOTE_ACCEPTED);
    SAME(lis_receiver_set_text_limit(&receiver, 5), LIS_STATUS_OK);
    SAME(lis_receiver_set_limit(&receiver, limit), LIS_STATUS_OK);
    IS(control(&receiver, ENQ), ACK, LIS_NOTE_OPENED);
    IS(frame(&receiver, 1, 240, ETX), ACK, LIS_NOTE_ACCEPTED);
    end(&receiver);
}

/* Bytes of the link and others, in any order: with a limit that no text reaches a receiver means the same by each. */
static void of_noise(size_t limit) {
    static const uint8_t likely[] = {ENQ, EOT, 2, ETX, '\r', '\n', '1', '2', 'A', 'a', '\r', '\n'};
    lis_receiver one = begun(limit), other = begun(limit);
    unsigned seed = 11;
    SAME(lis_receiver_set_text_limit(&one, 100000), LIS_STATUS_OK);
    for (int round = 0; round < 3000; round++) {
        lis_step here = {0}, there = {0};
        if (round % 5 == 0) {
            here = frame(&one, 1 + seed % 2, seed % 200, seed & 64 ? ETX : ETB);
            there = frame(&other, 1 + seed % 2, seed % 200, seed & 64 ? ETX : ETB);
        } else {
            uint8_t byte = likely[(seed >> 16) % sizeof likely];
            here = control(&one, byte);
            there = control(&other, byte);
        }
        SAME(here.reply * 1000u + here.note * 10u + here.has_text,
             there.reply * 1000u + there.note * 10u + there.has_text);
        SAME(here.detail + here.place, there.detail + there.place);
        SAME(lis_receiver_held(&one), lis_receiver_held(&other));
        seed = seed * 1103515245u + 12345u;
    }
    end(&one);
    end(&other);
}

/* Whether a text that was delivered has so many bytes, all of them 'a'. */
static bool is_text(const uint8_t *text, size_t len) {
    size_t at = 0;
    while (at < len && text[at] == 'a')
        at++;
    return at == len;
}

/* A receiver with texts of up to 300 bytes in a buffer at this place, between bytes that must stay. */
static void of_lent(lis_receiver *receiver, size_t offset) {
    static uint8_t room[700], text[300];
    memset(room, 0x5a, sizeof room);
    SAME(lis_receiver_lend(receiver, room + offset, 602), LIS_STATUS_OK);
    unsigned long before = asked;
    IS(control(receiver, ENQ), ACK, LIS_NOTE_OPENED);
    for (unsigned number = 1; number < 50; number += 2) {
        IS(frame(receiver, number, 200, ETB), ACK, LIS_NOTE_ACCEPTED);
        IS(frame(receiver, number + 1, 101, ETX), NAK, LIS_NOTE_TOO_LONG);
        lis_step last = frame(receiver, number + 1, 100, ETX);
        IS(last, ACK, LIS_NOTE_ACCEPTED);
        SAME(last.has_text && lis_receiver_text_len(receiver) == 300, true);
        SAME(lis_receiver_text(receiver, text, sizeof text), LIS_STATUS_OK);
        SAME(is_text(text, 300), true);
    }
    lis_receiver_timer(receiver, &(lis_step){0});
    lis_receiver_restart(receiver);
    IS(control(receiver, ENQ), ACK, LIS_NOTE_OPENED);
    IS(frame(receiver, 1, 240, ETX), ACK, LIS_NOTE_ACCEPTED);
    SAME(asked, before);
    for (size_t at = 0; at < sizeof room; at++)
        SAME(room[at] == 0x5a || (at >= offset && at < offset + 602), true);
}

static void of_lent_receivers(void) {
    uint8_t short_of[3];
    lis_receiver receiver = begun(LIS_LIMIT_FRAME_TEXT);
    IS(control(&receiver, ENQ), ACK, LIS_NOTE_OPENED);
    IS(frame(&receiver, 1, 240, ETB), ACK, LIS_NOTE_ACCEPTED);
    SAME(lis_receiver_lend(&receiver, short_of, 3), LIS_STATUS_TOO_SHORT);
    SAME(lis_receiver_lend(&receiver, NULL, 0), LIS_STATUS_TOO_SHORT);
    SAME(lis_receiver_held(&receiver), 240);
    of_lent(&receiver, 50);     /* what the heap gave goes back */
    of_lent(&receiver, 51);     /* another buffer */
    unsigned long before = asked;
    SAME(lis_receiver_set_limit(&receiver, LIS_LIMIT_FRAME_TEXT), LIS_STATUS_OK);
    IS(control(&receiver, ENQ), ACK, LIS_NOTE_OPENED);
    IS(frame(&receiver, 1, 240, ETB), ACK, LIS_NOTE_ACCEPTED);
    IS(frame(&receiver, 2, 240, ETX), ACK, LIS_NOTE_ACCEPTED);
    SAME(asked > before, true); /* the heap's again */
    end(&receiver);
}

/* What a station answers to bytes that a sender gave. */
static lis_step at_station(lis_station *station, const uint8_t *bytes, size_t len) {
    lis_answer answer = {0};
    for (size_t at = 0; at < len;)
        at += lis_station_hear(station, bytes + at, len - at, &answer);
    return answer.step;
}

/* A station that takes no memory both ways: it has a buffer for 300 bytes of text, and sends a text of the caller's. */
static void of_lent_station(void) {
    static uint8_t room[602], bytes[ROOM];
    static const lis_text texts[] = {{(const uint8_t *)"L|1\r", 4}};
    lis_station station = {malloc(lis_station_size())};
    lis_bytes out;
    lis_place fault;
    lis_station_init(station.at);
    unsigned long before = asked;
    SAME(lis_station_lend(&station, (lis_role)9, room, sizeof room), LIS_STATUS_BAD_NUMBER);
    SAME(lis_station_lend(&station, LIS_ROLE_ANALYZER, room, 3), LIS_STATUS_TOO_SHORT);
    SAME(lis_station_lend(&station, LIS_ROLE_ANALYZER, room, sizeof room), LIS_STATUS_OK);
    for (int session = 0; session < 20; session++) {
        IS(at_station(&station, (const uint8_t[]){ENQ}, 1), ACK, LIS_NOTE_OPENED);
        IS(at_station(&station, bytes, put_frame(bytes, 1, 240, ETB)), ACK, LIS_NOTE_ACCEPTED);
        IS(at_station(&station, bytes, put_frame(bytes, 2, 61, ETX)), NAK, LIS_NOTE_OUT_OF_MEMORY);
        lis_step last = at_station(&station, bytes, put_frame(bytes, 2, 60, ETX));
        IS(last, ACK, LIS_NOTE_ACCEPTED);
        SAME(last.has_text && lis_station_text_len(&station) == 300, true);
        SAME(lis_station_text(&station, bytes, sizeof bytes), LIS_STATUS_OK);
        SAME(is_text(bytes, 300), true);
        IS(at_station(&station, (const uint8_t[]){EOT}, 1), 0, LIS_NOTE_ENDED);
        SAME(lis_station_start_lent(&station, texts, 1, &out, &fault), LIS_STATUS_OK);
        for (int reply = 0; reply < 2; reply++)
            at_station(&station, (const uint8_t[]){ACK}, 1);
        SAME(lis_station_outcome(&station), LIS_OUTCOME_DONE);
    }
    SAME(asked, before);
    lis_station_end(station);
    free(station.at);
}

int main(void) {
    static const size_t limits[] = {LIS_LIMIT_FRAME_TEXT, LIS_LIMIT_LONG_FRAME_TEXT};
    for (int i = 0; i < 2; i++) {
        of_limit(limits[i]);
        of_noise(limits[i]);
    }
    of_lent_receivers();
    of_lent_station();
    printf("%d compared\n", compared);
    return 0;
}
