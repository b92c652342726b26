/* A computer that hears an analyzer: keeps each text, and then replies in time. */
#include "loops.h"
#include <errno.h>
#include <poll.h>
#include <stdlib.h>
#include <unistd.h>

/* A host at work. A step that meant something begins the receiver's timer anew, which is over when it is `due`. The
 * bytes in hand came after the line was seen `empty`. */
struct work {
    int line;
    int percent;
    lis_receiver receiver;
    host_takes *takes;
    void *keeper;
    long long due;
    long long empty;
};

static long long scaled(const struct work *work, int seconds) {
    return seconds * 10LL * work->percent;
}

/* Keeps the text that is complete. */
static bool keep(struct work *work) {
    size_t len = lis_receiver_text_len(&work->receiver);
    uint8_t *text = malloc(len + 1);
    bool kept = text != NULL && lis_receiver_text(&work->receiver, text, len) == LIS_STATUS_OK
        && work->takes(work->keeper, text, len);
    free(text);
    return kept;
}

/* Whether a reply to the bytes in hand could come after the sender's timer: two thirds of it are over. */
static bool is_late(const struct work *work) {
    return milliseconds() - work->empty > scaled(work, LIS_SECONDS_REPLY) * 2 / 3;
}

/* Hears bytes that came together, and answers each step; whether the line takes the replies. */
static bool hear(struct work *work, const uint8_t *bytes, size_t len) {
    lis_step step;
    while (len > 0) {
        size_t heard = lis_receiver_hear(&work->receiver, bytes, len, &step);
        bytes += heard;
        len -= heard;
        if ((step.has_text && !keep(work)) || (step.reply != 0 && is_late(work))) {
            /* No reply: the session fails, and the analyzer sends its texts again. */
            lis_receiver_restart(&work->receiver);
            return true;
        }
        if (step.reply != 0 && write(work->line, &step.reply, 1) != 1)
            return false;
        if (step.note != LIS_NOTE_QUIET)
            work->due = milliseconds() + scaled(work, LIS_SECONDS_RECEIVER);
    }
    return true;
}

/* Waits for bytes; false if the receiver's timer is over first. It looks often, so that it knows how old they are. A
 * signal of the program's ends no wait. */
static bool await(struct work *work) {
    struct pollfd ready = {work->line, POLLIN, 0};
    long long pause = scaled(work, 1);
    for (;;) {
        long long now = milliseconds(), left = work->due - now;
        bool open = lis_receiver_is_open(&work->receiver);
        if (open && left <= 0)
            return false;
        int came = poll(&ready, 1, (int)(open && left < pause ? left : pause));
        if (came < 0 && errno == EINTR)
            came = poll(&ready, 1, 0);
        if (came != 0)
            return true;
        work->empty = now;
    }
}

int host(int line, host_takes *takes, void *keeper, int percent) {
    struct work work = {line, percent, {malloc(lis_receiver_size())}, takes, keeper, 0, milliseconds()};
    uint8_t bytes[512];
    ssize_t got = 1;
    if (work.receiver.at == NULL)
        return -1;
    lis_receiver_init(work.receiver.at);
    lis_receiver_set_careful(&work.receiver, true);    /* so that one damaged byte of a frame acknowledges nothing */
    while (got > 0) {
        /* The timer runs on while bytes come that mean nothing. */
        if (!await(&work)) {
            lis_step step;
            lis_receiver_timer(&work.receiver, &step);
            continue;
        }
        long long before = milliseconds();
        got = read(line, bytes, sizeof bytes);
        if (got > 0 && !hear(&work, bytes, (size_t)got))
            got = -1;
        if (got < (ssize_t)sizeof bytes)
            work.empty = before;    /* this read took all that there was */
    }
    lis_receiver_end(work.receiver);
    free(work.receiver.at);
    return got < 0 ? -1 : 0;
}
