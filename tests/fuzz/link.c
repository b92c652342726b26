/* A stream through two receivers, one by pieces and one by bytes, which must say the same; through a scanner; and its
 * replies through a sender. Half of the inputs are made into frames with right checksums, so that the deep paths are
 * reached. */
#include "fuzz.h"

enum { MOST = 65536 };

struct ends {
    lis_scanner scanner;
    lis_receiver pieces, bytes;
    lis_sender sender;
    lis_bytes out;
};

/* A frame with the next bytes as its text, some of them damaged or of another number. */
static size_t add_frame(input *from, uint8_t op, unsigned *number, uint8_t *stream) {
    size_t len = op < 110 ? one(from) : op % 32u, place;
    lis_bytes frame;
    if (op > 240)
        *number = one(from);
    uint8_t *text = some(from, &len);
    lis_status status = lis_frame_write((uint8_t)(*number & 7), op & 1, text, len, &frame, &place);
    CHECK(status != LIS_STATUS_BAD_NUMBER && (status == LIS_STATUS_FORBIDDEN || place == 0));
    free(text);
    if (status != LIS_STATUS_OK) {
        stream[0] = one(from);
        return 1;
    }
    CHECK(frame.len == len + 7);
    memcpy(stream, frame.bytes, frame.len);
    if (op > 230)
        stream[op % frame.len] ^= (uint8_t)(1u << (op & 7));
    ++*number;
    return frame.len;
}

/* ENQ, frames, EOT and other bytes. */
static size_t make(input *from, uint8_t *stream) {
    size_t len = 0;
    unsigned number = 1;
    while (from->left > 0 && len + 600 < MOST) {
        uint8_t op = one(from);
        if (op < 40) {
            stream[len++] = 5;
            number = 1;
        } else if (op < 50) {
            stream[len++] = 4;
        } else if (op < 70) {
            stream[len++] = one(from);
        } else {
            len += add_frame(from, op, &number, stream + len);
        }
    }
    return len;
}

static void compare_texts(struct ends *ends) {
    size_t len = lis_receiver_text_len(&ends->pieces);
    CHECK(len == lis_receiver_text_len(&ends->bytes) && len <= LIS_LIMIT_TEXT_BYTES);
    uint8_t *one = block(len + 1), *other = block(len + 1);
    CHECK(lis_receiver_text(&ends->pieces, one, len) == LIS_STATUS_OK);
    CHECK(lis_receiver_text(&ends->bytes, other, len) == LIS_STATUS_OK && memcmp(one, other, len) == 0);
    CHECK(len == 0 || lis_receiver_text(&ends->pieces, one, len - 1) == LIS_STATUS_TOO_SHORT);
    free(one);
    free(other);
}

static void hear(struct ends *ends, const uint8_t *piece, size_t len) {
    lis_step step, other;
    for (size_t at = 0; at < len;) {
        size_t heard = lis_receiver_hear(&ends->pieces, piece + at, len - at, &step);
        CHECK(heard > 0 && heard <= len - at);
        for (size_t i = 0; i < heard; i++) {
            lis_receiver_byte(&ends->bytes, piece[at + i], &other);
            CHECK(i + 1 == heard || other.note == LIS_NOTE_QUIET);
        }
        CHECK(step.note == other.note && step.reply == other.reply && step.has_text == other.has_text);
        CHECK(step.detail == other.detail && step.place == other.place);
        CHECK(!step.has_text || step.note == LIS_NOTE_ACCEPTED);
        if (step.has_text)
            compare_texts(ends);
        if (step.reply != 0)
            lis_sender_reply(&ends->sender, step.reply, &ends->out);
        CHECK(ends->out.len <= LIS_LIMIT_FRAME_BYTES);
        at += heard;
    }
}

static void scan(struct ends *ends, const uint8_t *piece, size_t len) {
    lis_signal signal;
    for (size_t at = 0; at < len;) {
        size_t fed = lis_scanner_feed(&ends->scanner, piece + at, len - at, &signal);
        CHECK(fed > 0 && fed <= len - at && signal.len <= LIS_LIMIT_FRAME_TEXT);
        CHECK((signal.kind == LIS_SIGNAL_BAD_FRAME) == (signal.fault != LIS_FAULT_NONE));
        at += fed;
    }
}

static void start(struct ends *ends, const uint8_t *text, size_t len) {
    lis_place fault;
    CHECK(lis_sender_add_text(&ends->sender, text, len) == lis_text_check(text, len, &fault.place));
    CHECK(fault.place == 0 || fault.place < len);
    if (lis_sender_start(&ends->sender, &ends->out, &fault) == LIS_STATUS_OK)
        CHECK(ends->out.len == 1 && ends->out.bytes[0] == 5);
}

/* Something else than bytes comes between them. */
static void interrupt(struct ends *ends, uint32_t seed, const uint8_t *stream, size_t len) {
    lis_step one, other;
    lis_status reserved;
    uint64_t more = seed & 0x1fffff;
    switch (seed >> 8 & 63) {
    case 0:
        lis_receiver_timer(&ends->pieces, &one);
        lis_receiver_timer(&ends->bytes, &other);
        CHECK(one.note == other.note && one.reply == 0);
        break;
    case 1:
        lis_receiver_restart(&ends->pieces);
        lis_receiver_restart(&ends->bytes);
        CHECK(!lis_receiver_is_open(&ends->pieces) && lis_receiver_held(&ends->pieces) == 0);
        break;
    case 2:
        lis_receiver_set_room(&ends->pieces, seed & 1);
        lis_receiver_set_room(&ends->bytes, seed & 1);
        break;
    case 3:
        CHECK((lis_receiver_set_ready(&ends->pieces, (lis_ready)(seed & 3)) == LIS_STATUS_OK) == ((seed & 3) != 3));
        CHECK((lis_receiver_set_ready(&ends->bytes, (lis_ready)(seed & 3)) == LIS_STATUS_OK) == ((seed & 3) != 3));
        break;
    case 4:
        reserved = lis_receiver_reserve(&ends->pieces, more);
        CHECK(reserved == (more > LIS_LIMIT_TEXT_BYTES ? LIS_STATUS_TOO_LONG : LIS_STATUS_OK));
        break;
    case 5:
        lis_sender_timer(&ends->sender, &ends->out);
        break;
    case 6:
        lis_sender_restart(&ends->sender);
        CHECK(lis_sender_phase(&ends->sender) == LIS_PHASE_NEUTRAL);
        break;
    case 7:
        lis_sender_clear(&ends->sender);
        start(ends, stream, len);
        break;
    case 8:
        more = seed & 1 ? more : more % 700;
        reserved = lis_receiver_set_text_limit(&ends->pieces, more);
        CHECK(reserved == (more > LIS_LIMIT_TEXT_BYTES ? LIS_STATUS_TOO_LONG : LIS_STATUS_OK));
        CHECK(lis_receiver_set_text_limit(&ends->bytes, more) == reserved);
        break;
    default:
        break;
    }
}

int LLVMFuzzerTestOneInput(const uint8_t *data, size_t size) {
    if (size < 8)
        return 0;
    input from = {data, size};
    uint32_t seed = one(&from);
    seed |= (uint32_t)one(&from) << 8;
    uint8_t *made = block(MOST);
    size_t len = seed & 1 ? from.left : make(&from, made);
    uint8_t *stream = copy_of(seed & 1 ? from.at : made, len);
    free(made);
    struct ends ends = {{block(lis_scanner_size())}, {block(lis_receiver_size())}, {block(lis_receiver_size())},
                        {block(lis_sender_size())}, {0, {0}}};
    lis_scanner_init(ends.scanner.at);
    lis_receiver_init(ends.pieces.at);
    lis_receiver_init(ends.bytes.at);
    lis_sender_init(ends.sender.at);
    start(&ends, data, size / 2);
    for (size_t done = 0; done < len;) {
        size_t count = piece_of(&seed, 97, len - done);
        uint8_t *piece = copy_of(stream + done, count);
        hear(&ends, piece, count);
        scan(&ends, piece, count);
        free(piece);
        done += count;
        interrupt(&ends, seed, stream, len);
        CHECK(lis_receiver_held(&ends.pieces) == lis_receiver_held(&ends.bytes));
        CHECK(lis_receiver_accepted(&ends.pieces) == lis_receiver_accepted(&ends.bytes));
    }
    lis_scanner_end(ends.scanner);
    lis_receiver_end(ends.pieces);
    lis_receiver_end(ends.bytes);
    lis_sender_end(ends.sender);
    free(ends.scanner.at);
    free(ends.pieces.at);
    free(ends.bytes.at);
    free(ends.sender.at);
    free(stream);
    return 0;
}
