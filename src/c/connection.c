/* A sender or a station and the connection that it uses: no session starts if a late reply could meet it. Part of
 * liblislink. Plain C over the proved calls: it is tested and not proved. */
#include "lislink.h"

/* Notes whether a late reply may come on this connection: the session that just ended was not answered. */
static void settle(lis_line *line) {
    lis_outcome outcome = lis_sender_outcome(&line->sender);
    line->spent = line->spent || outcome == LIS_OUTCOME_TIMED_OUT || outcome == LIS_OUTCOME_RESTARTED;
}

void lis_line_init(lis_line *line, lis_sender sender) {
    line->sender = sender;
    line->connection = 0;
    line->spent = true;
}

uint64_t lis_line_connected(lis_line *line) {
    lis_sender_restart(&line->sender);
    line->spent = false;
    return ++line->connection;
}

lis_status lis_line_start(lis_line *line, lis_bytes *out, lis_place *fault) {
    if (!line->spent)
        return lis_sender_start(&line->sender, out, fault);
    fault->index = fault->place = 0;
    return LIS_STATUS_OLD_LINE;
}

lis_status lis_line_start_lent(lis_line *line, const lis_text *texts, size_t texts_len, lis_bytes *out,
                               lis_place *fault) {
    if (!line->spent)
        return lis_sender_start_lent(&line->sender, texts, texts_len, out, fault);
    fault->index = fault->place = 0;
    return LIS_STATUS_OLD_LINE;
}

void lis_line_reply(lis_line *line, uint64_t connection, uint8_t byte, lis_bytes *out) {
    out->len = 0;
    if (connection != line->connection || line->spent)
        return;
    lis_sender_reply(&line->sender, byte, out);
}

lis_status lis_line_frame(const lis_line *line, uint64_t connection, uint8_t *out, size_t out_len, size_t *size) {
    *size = 0;
    if (connection != line->connection || line->spent)
        return LIS_STATUS_ABSENT;
    return lis_sender_frame(&line->sender, out, out_len, size);
}

void lis_line_timer(lis_line *line, lis_bytes *out) {
    bool session = lis_sender_phase(&line->sender) != LIS_PHASE_NEUTRAL;
    lis_sender_timer(&line->sender, out);
    if (session)
        settle(line);
}

void lis_line_restart(lis_line *line) {
    bool session = lis_sender_phase(&line->sender) != LIS_PHASE_NEUTRAL;
    lis_sender_restart(&line->sender);
    if (session)
        settle(line);
}

bool lis_sender_timer_seconds(const lis_sender *s, uint32_t *seconds) {
    lis_phase phase = lis_sender_phase(s);
    *seconds = phase == LIS_PHASE_NEUTRAL      ? 0
               : phase == LIS_PHASE_BUSY       ? LIS_SECONDS_BUSY
               : phase == LIS_PHASE_CONTENTION ? LIS_SECONDS_CONTENTION
                                               : LIS_SECONDS_REPLY;
    return phase != LIS_PHASE_NEUTRAL;
}

bool lis_receiver_timer_seconds(const lis_receiver *s, uint32_t *seconds) {
    bool runs = lis_receiver_is_open(s);
    *seconds = runs ? LIS_SECONDS_RECEIVER : 0;
    return runs;
}

void lis_station_line_init(lis_station_line *line, lis_station station) {
    line->station = station;
    line->is_new = false;
}

void lis_station_line_connected(lis_station_line *line) {
    lis_station_restart(&line->station);
    line->is_new = true;
}

bool lis_station_line_needs_new(const lis_station_line *line) {
    lis_outcome outcome = lis_station_outcome(&line->station);
    return !line->is_new && outcome != LIS_OUTCOME_DONE && outcome != LIS_OUTCOME_SIX_TRIES;
}

/* Whether a late reply could meet the ENQ of a start; then `fault` is written. */
static bool is_old(const lis_station_line *line, lis_place *fault) {
    fault->index = fault->place = 0;
    return lis_station_phase(&line->station) == LIS_PHASE_NEUTRAL && lis_station_line_needs_new(line);
}

/* The status of a start, after which the connection has had a session. */
static lis_status begun(lis_station_line *line, lis_status status) {
    line->is_new = line->is_new && status != LIS_STATUS_OK;
    return status;
}

lis_status lis_station_line_start(lis_station_line *line, lis_bytes *out, lis_place *fault) {
    if (is_old(line, fault))
        return LIS_STATUS_OLD_LINE;
    return begun(line, lis_station_start(&line->station, out, fault));
}

lis_status lis_station_line_start_lent(lis_station_line *line, const lis_text *texts, size_t texts_len, lis_bytes *out,
                                       lis_place *fault) {
    if (is_old(line, fault))
        return LIS_STATUS_OLD_LINE;
    return begun(line, lis_station_start_lent(&line->station, texts, texts_len, out, fault));
}
