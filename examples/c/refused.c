/* A session in which each allocation fails in turn: what failed is reported, nothing leaks, and the session can be
 * had. */
#include "refusing_heap.h"
#include <stdio.h>
#include <string.h>

static char long_text[600];
static size_t added, refused_adds, refused_frames, handed_out;

/* Adds a text, and once more if there was no memory for it. */
static bool add(lis_sender *sender) {
    uint8_t status = lis_sender_add_text(sender, (const uint8_t *)long_text, sizeof long_text);
    if (status == LIS_STATUS_OUT_OF_MEMORY) {
        refused_adds++;
        status = lis_sender_add_text(sender, (const uint8_t *)long_text, sizeof long_text);
    }
    added += status == LIS_STATUS_OK;
    return status == LIS_STATUS_OK;
}

/* What the receiver answers to bytes; 0 for nothing. */
static uint8_t hear(lis_receiver *receiver, const lis_bytes *out) {
    static uint8_t copy[sizeof long_text];
    lis_step step = {0, false, 0, 0, 0};
    size_t heard = 0;
    uint8_t reply = 0;
    while (heard < out->len) {
        heard += lis_receiver_hear(receiver, out->bytes + heard, out->len - heard, &step);
        if (step.reply != 0)
            reply = step.reply;
        refused_frames += step.note == LIS_NOTE_OUT_OF_MEMORY;
        if (step.has_text && lis_receiver_text_len(receiver) == sizeof copy
            && lis_receiver_text(receiver, copy, sizeof copy) == LIS_STATUS_OK
            && memcmp(copy, long_text, sizeof copy) == 0)
            handed_out++;
    }
    return reply;
}

static bool session(lis_sender *sender, lis_receiver *receiver) {
    lis_bytes out;
    lis_place fault;
    if (!add(sender) || !add(sender) || !add(sender) || lis_sender_start(sender, &out, &fault) != LIS_STATUS_OK)
        return false;
    for (int turn = 0; turn < 100 && lis_sender_phase(sender) != LIS_PHASE_NEUTRAL; turn++) {
        uint8_t reply = hear(receiver, &out);
        if (reply != 0)
            lis_sender_reply(sender, reply, &out);
        else
            lis_sender_timer(sender, &out);
    }
    return lis_sender_outcome(sender) == LIS_OUTCOME_DONE;
}

int main(void) {
    memset(long_text, 'x', sizeof long_text);
    size_t turn = 0, met = 1;
    while (met != 0) {
        refused_at = ++turn;
        calls = added = refused_adds = refused_frames = handed_out = 0;
        lis_sender sender = {malloc(lis_sender_size())};
        lis_receiver receiver = {malloc(lis_receiver_size())};
        if (sender.at == NULL || receiver.at == NULL)
            return 2;
        lis_sender_init(sender.at);
        lis_receiver_init(receiver.at);
        bool done = session(&sender, &receiver);
        met = calls >= refused_at;
        lis_sender_end(sender);
        lis_receiver_end(receiver);
        free(sender.at);
        free(receiver.at);
        if (!done || added != 3 || handed_out != 3 || live != 0 || refused_adds + refused_frames != met) {
            fprintf(stderr, "call %zu refused: done %d, %zu added, %zu handed out, %zu live, %zu and %zu told\n", turn,
                    done, added, handed_out, live, refused_adds, refused_frames);
            return 1;
        }
    }
    printf("%zu calls refused in turn\n", turn - 1);
    return turn < 5;
}
