/* Sends a text in a session, on the line that is its standard input: quick_send TEXT <>/dev/ttyUSB0. Its status is 0
 * if the host acknowledged the text. A reply that an earlier process left on a serial port could be taken for one of
 * ours: so it waits first, and drops what came. A connection has to be new. */
#include <lislink.h>
#include <poll.h>
#include <signal.h>
#include <stdlib.h>
#include <string.h>
#include <termios.h>
#include <time.h>
#include <unistd.h>

#ifndef CLOCK_BOOTTIME
#define CLOCK_BOOTTIME CLOCK_MONOTONIC
#endif

enum { MOST_TRIES = 3 };    /* how often ENQ is sent to a host that is busy */

/* The time in milliseconds. */
static int64_t now(void) {
    struct timespec it;
    clock_gettime(CLOCK_BOOTTIME, &it);    /* it runs on while the machine is suspended */
    return (int64_t)it.tv_sec * 1000 + it.tv_nsec / 1000000;
}

/* Waits for a byte until this time: 1 if one came, 0 if none did, -1 if the line is closed. */
static int byte_until(int line, int64_t due, uint8_t *byte) {
    struct pollfd ready = {line, POLLIN, 0};
    int64_t left = due - now();
    if (left <= 0 || poll(&ready, 1, (int)left) == 0)
        return 0;
    return read(line, byte, 1) == 1 ? 1 : -1;
}

/* Sends what is due, and hears the replies, until the session is over, given up, or the line is closed. */
static void run(int line, lis_sender *sender, lis_bytes *out) {
    static const int seconds[] = {0, LIS_SECONDS_REPLY, LIS_SECONDS_BUSY, LIS_SECONDS_CONTENTION, LIS_SECONDS_REPLY};
    uint8_t phase, byte;
    int tries = 1;
    while (write(line, out->bytes, out->len) == (ssize_t)out->len) {
        if ((phase = lis_sender_phase(sender)) == LIS_PHASE_NEUTRAL)
            return;
        int64_t due = now() + 1000 * seconds[phase];
        do {
            int came = byte_until(line, due, &byte);
            if (came < 0 || (came == 0 && phase == LIS_PHASE_BUSY && ++tries > MOST_TRIES))
                return;
            if (came > 0)
                lis_sender_reply(sender, byte, out);
            else
                lis_sender_timer(sender, out);
        } while (out->len == 0 && lis_sender_phase(sender) == phase);    /* the byte meant nothing */
    }
}

static bool send_text(int line, const uint8_t *text, size_t len) {
    lis_sender sender = {malloc(lis_sender_size())};
    lis_bytes out;
    lis_place fault;
    if (sender.at == NULL)
        return false;
    lis_sender_init(sender.at);
    if (lis_sender_add_text(&sender, text, len) == LIS_STATUS_OK
        && lis_sender_start(&sender, &out, &fault) == LIS_STATUS_OK)
        run(line, &sender, &out);
    bool done = lis_sender_outcome(&sender) == LIS_OUTCOME_DONE;
    lis_sender_end(sender);
    free(sender.at);
    return done;
}

/* Whether no late reply can come any more on a line that was in use before. */
static bool is_settled(int line) {
    return !isatty(line) || (sleep(LIS_SECONDS_RECEIVER) == 0 && tcflush(line, TCIFLUSH) == 0);
}

int main(int count, char **words) {
    signal(SIGPIPE, SIG_IGN);                                            /* a write to a closed line fails, no more */
    return count == 2 && is_settled(0) && send_text(0, (const uint8_t *)words[1], strlen(words[1])) ? 0 : 1;
}
