/* A receiver or a station with its texts in a buffer of the caller's. Part of liblislink. Plain C over the proved calls
 * and the heap of heap.c: it is tested and not proved. */
#include "heap.h"

/* How many bytes a text may have whose handle has two rooms in so many bytes, each at an odd address. */
static size_t room_of(size_t len) {
    size_t room = len < 2 ? 0 : (len - 2) / 2;
    return room < LIS_LIMIT_TEXT_BYTES ? room : LIS_LIMIT_TEXT_BYTES;
}

lis_status lis_receiver_lend(lis_receiver *s, uint8_t *buffer, size_t buffer_len) {
    size_t room = room_of(buffer_len);
    if (room == 0)
        return LIS_STATUS_TOO_SHORT;
    lis_status status = lis_receiver_set_limit(s, LIS_LIMIT_FRAME_TEXT);
    lislink_lend(buffer, buffer_len);
    if (status == LIS_STATUS_OK)
        status = lis_receiver_reserve(s, room);
    lislink_lend(NULL, 0);
    return status == LIS_STATUS_OK ? lis_receiver_set_text_limit(s, room) : status;
}

lis_status lis_station_lend(lis_station *s, lis_role role, uint8_t *buffer, size_t buffer_len) {
    size_t room = room_of(buffer_len);
    if (room == 0)
        return LIS_STATUS_TOO_SHORT;
    lis_status status = lis_station_begin(s, role, LIS_LIMIT_FRAME_TEXT);
    lislink_lend(buffer, buffer_len);
    if (status == LIS_STATUS_OK)
        status = lis_station_reserve(s, room);
    lislink_lend(NULL, 0);
    return status;
}
