/* Receives from an analyzer that connects to a TCP port of this machine, stores each text in a file before it is
 * acknowledged, and prints the results of a session at its end: quick_receive PORT FILE. Port 0 is one that is free,
 * and is printed. It serves one connection. host.c and serial.c are for a serial line; they run the timer too. */
#include "keep.h"
#include "port.h"
#include "print.h"

/* Appends the text that is complete to the file; whether it is on the disk. */
static bool keep(lis_receiver *receiver, text_file *store) {
    size_t len = lis_receiver_text_len(receiver);
    uint8_t *text = malloc(len + 1);
    bool kept = text != NULL && lis_receiver_text(receiver, text, len) == LIS_STATUS_OK && keep_text(store, text, len);
    free(text);
    return kept;
}

/* Hears bytes that came after the line was seen empty; whether the line takes the replies. */
static bool hear(lis_receiver *receiver, const uint8_t *bytes, size_t got, time_t empty, int line, text_file *store) {
    lis_step step;
    for (size_t heard = 0; heard < got;) {
        heard += lis_receiver_hear(receiver, bytes + heard, got - heard, &step);
        bool late = now() - empty > LIS_SECONDS_REPLY * 2 / 3;
        if ((step.has_text && !keep(receiver, store)) || late) {    /* keep, then reply in time */
            lis_receiver_restart(receiver);                         /* else no reply */
            return true;
        }
        if (step.reply != 0 && !put(line, step.reply))
            return false;
    }
    return true;
}

int main(int count, char **words) {
    if (count != 3)
        return fprintf(stderr, "usage: quick_receive PORT FILE\n"), 2;
    text_file store;
    lis_receiver receiver = {malloc(lis_receiver_size())};          /* a block of the caller's */
    int line = receiver.at != NULL && open_texts(&store, words[2]) ? accept_one((uint16_t)atoi(words[1])) : -1;
    if (line < 0)
        return perror("quick_receive"), 1;
    off_t begin = store.end;                                        /* where the texts of the session begin */
    time_t empty = now(), next;
    uint8_t bytes[512];
    ssize_t got;
    lis_receiver_init(receiver.at);
    lis_receiver_set_careful(&receiver, true);                      /* a damaged byte acknowledges nothing */
    while ((got = read_some(line, bytes, sizeof bytes, &empty, &next)) > 0
           && hear(&receiver, bytes, (size_t)got, empty, line, &store)) {
        if (!lis_receiver_is_open(&receiver))                       /* the session is over */
            print_session(store.file, &begin, store.end);
        empty = next;
    }
    print_session(store.file, &begin, store.end);
    lis_receiver_end(receiver);
    free(receiver.at);
    close(store.file);
    return got == 0 ? 0 : 1;
}
