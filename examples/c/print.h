/* Prints the results of messages: each with its patient, its sample, its test and its value. */
#ifndef PRINT_H
#define PRINT_H

#include <lislink.h>
#include <stdio.h>
#include <stdlib.h>
#include <unistd.h>

/* A component of the record at a place, printed with what comes after it; nothing if it isn't there. Fields have the
 * standard's numbers, and components count from 0. */
static inline void print_part(const lis_message *message, const uint8_t *text, const lis_record_place *place,
                              size_t field, size_t component, const char *after) {
    uint8_t *room = malloc(place->len + 1);
    size_t size;
    if (room != NULL && lis_record_part(&message->delimiters, text + place->start, place->len, field, 0, component, room,
                                        place->len, &size) == LIS_STATUS_OK)
        printf("%.*s", (int)size, (const char *)room);
    printf("%s", after);
    free(room);
}

/* The results of a message, each with the order that it is under and the patient that this is under. */
static inline void print_results(const lis_message *message, const uint8_t *text, const lis_record_place *places) {
    for (size_t i = 0; i < message->count; i++) {
        if (places[i].letter != 'R')
            continue;
        const lis_record_place *order = &places[places[i].parent];
        print_part(message, text, &places[order->parent], 4, 0, " ");
        print_part(message, text, order, 3, 0, " ");
        print_part(message, text, &places[i], 3, 3, " ");
        print_part(message, text, &places[i], 4, 0, "\n");
    }
}

/* The results of each whole message of a text. What is none, as the beginning of a message whose session broke off, is
 * named on standard error: false then, or without memory. */
static inline bool print_messages(const uint8_t *text, size_t len) {
    lis_record_place *places = malloc((len / 2 + 1) * sizeof *places);    /* a record has two bytes at least */
    bool good = places != NULL;
    lis_message message;
    lis_found found;
    for (lis_status status; places != NULL; text += message.len, len -= message.len) {
        status = lis_message_places(text, len, places, len / 2 + 1, &message, &found);
        if (status == LIS_STATUS_NO_RECORD)
            break;
        if (status == LIS_STATUS_OK) {
            print_results(&message, text, places);
            continue;
        }
        bool begins = false;
        fprintf(stderr, "record %u: %s\n", (unsigned)found.number, lis_reason_text(found.reason));
        message.len = lis_header_find(text, len, &begins);    /* the next message */
        good = false;
    }
    free(places);
    fflush(stdout);
    return good;
}

/* The results of the texts that a file has from `begin` to `end`, where the next session begins. */
static inline void print_session(int file, off_t *begin, off_t end) {
    size_t len = (size_t)(end - *begin);
    uint8_t *text = malloc(len + 1);
    if (text != NULL && pread(file, text, len, *begin) == (ssize_t)len)
        print_messages(text, len);
    *begin = end;
    free(text);
}

#endif
