/* An analyzer: sends the texts of a message in one session, and reports how it ended. */
#include "loops.h"
#include <errno.h>
#include <poll.h>
#include <stdlib.h>
#include <string.h>
#include <unistd.h>

enum { MOST_TRIES = 3 };    /* how often ENQ is sent to a host that is busy */

/* How long the sender waits for a reply in a phase, before its timer runs out. */
static int seconds(lis_phase phase) {
    switch (phase) {
    case LIS_PHASE_BUSY:
        return LIS_SECONDS_BUSY;
    case LIS_PHASE_CONTENTION:
        return LIS_SECONDS_CONTENTION;
    default:
        return LIS_SECONDS_REPLY;
    }
}

/* Waits for one byte: 1 and the byte, 0 if the time is over, -1 if the line is closed. A signal of the program's ends
 * no wait. */
static int await(int line, long long until, uint8_t *byte) {
    struct pollfd ready = {line, POLLIN, 0};
    int came;
    do {
        long long left = until - milliseconds();
        came = left > 0 ? poll(&ready, 1, (int)left) : 0;
    } while (came < 0 && errno == EINTR);
    if (came == 0)
        return 0;
    return read(line, byte, 1) == 1 ? 1 : -1;
}

static bool put(int line, const lis_bytes *out) {
    return out->len == 0 || write(line, out->bytes, out->len) == (ssize_t)out->len;
}

/* Goes on with a session that was started until it is over or given up. */
static int run(int line, lis_sender *sender, lis_bytes *out, int percent) {
    int tries = 1;
    while (put(line, out)) {
        lis_phase phase = lis_sender_phase(sender);
        uint8_t byte;
        if (phase == LIS_PHASE_NEUTRAL)
            return lis_sender_outcome(sender);
        long long until = milliseconds() + seconds(phase) * 10LL * percent;
        int got;
        out->len = 0;
        /* A byte that changes nothing leaves the timer running. */
        while ((got = await(line, until, &byte)) == 1) {
            lis_sender_reply(sender, byte, out);
            if (out->len != 0 || lis_sender_phase(sender) != phase)
                break;
        }
        if (got < 0 || (got == 0 && phase == LIS_PHASE_BUSY && ++tries > MOST_TRIES))
            return -1;
        if (got == 0)
            lis_sender_timer(sender, out);
    }
    return -1;
}

int analyzer(int line, const char *const *texts, size_t count, int percent) {
    lis_sender sender = {malloc(lis_sender_size())};
    lis_bytes out;
    lis_place fault;
    int outcome = -1;
    if (sender.at == NULL)
        return -1;
    lis_sender_init(sender.at);
    size_t added = 0;
    while (added < count
           && lis_sender_add_text(&sender, (const uint8_t *)texts[added], strlen(texts[added])) == LIS_STATUS_OK)
        added++;
    if (added == count && lis_sender_start(&sender, &out, &fault) == LIS_STATUS_OK)
        outcome = run(line, &sender, &out, percent);
    lis_sender_end(sender);
    free(sender.at);
    return outcome;
}

int deliver(analyzer_line *line, const char *const *texts, size_t count, int percent) {
    if (line->fd < 0 && (line->fd = line->connect(line->how)) < 0)
        return -1;
    int outcome = analyzer(line->fd, texts, count, percent);
    if (outcome != LIS_OUTCOME_DONE) {
        close(line->fd);    /* a reply that comes now must not meet the next session */
        line->fd = -1;
    }
    return outcome;
}
