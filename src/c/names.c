/* The release of the library and words for its constants, for logs. Part of liblislink. Nothing here is proved:
 * the tests compare it with lislink.h. Made by tools/codes. */
#include "lislink.h"

#define WORDS(table, at) ((at) < sizeof(table) / sizeof *(table) && (table)[at] ? (table)[at] : "unknown")

const char *lis_version(void) {
    return LIS_VERSION;
}

const char *lis_status_text(lis_status status) {
    static const char *const words[] = {
        [LIS_STATUS_OK] = "done",
        [LIS_STATUS_IN_SESSION] = "a session is going on",
        [LIS_STATUS_NO_TEXT] = "there is no text to send",
        [LIS_STATUS_TOO_LONG] = "there are more bytes than the limit allows",
        [LIS_STATUS_FORBIDDEN] = "the text has a byte that no text may hold",
        [LIS_STATUS_FULL] = "there are as many texts as a session has",
        [LIS_STATUS_OUT_OF_MEMORY] = "out of memory",
        [LIS_STATUS_BAD_NUMBER] = "the number is not one of those that are known",
        [LIS_STATUS_TOO_SHORT] = "the buffer is too short",
        [LIS_STATUS_NO_RECORD] = "the text is empty, or there is no record",
        [LIS_STATUS_BAD_LETTER] = "no letter of such a record, or no field delimiter after it",
        [LIS_STATUS_BAD_DELIMITERS] = "the bytes are no four delimiters",
        [LIS_STATUS_ABSENT] = "there is no such part",
        [LIS_STATUS_UNFINISHED] = "a message, a record or a field isn't ended",
        [LIS_STATUS_PUT_NOT_HEADER] = "outside a message a header comes first",
        [LIS_STATUS_PUT_NO_PARENT] = "the record has no parent in the message",
        [LIS_STATUS_PUT_SECOND_HEADER] = "the message already has its header",
        [LIS_STATUS_OLD_LINE] = "a session starts on a new connection: none was made yet, or a session failed on this one",
        [LIS_STATUS_LINE_OPEN] = "the other side has the line",
    };
    return WORDS(words, status);
}

const char *lis_signal_text(lis_signal_kind kind) {
    static const char *const words[] = {
        [LIS_SIGNAL_NONE] = "no signal",
        [LIS_SIGNAL_ENQ] = "ENQ",
        [LIS_SIGNAL_EOT] = "EOT",
        [LIS_SIGNAL_FRAME] = "frame",
        [LIS_SIGNAL_BAD_FRAME] = "bad frame",
        [LIS_SIGNAL_LONG_FRAME] = "long frame",
    };
    return WORDS(words, kind);
}

const char *lis_fault_text(lis_fault fault) {
    static const char *const words[] = {
        [LIS_FAULT_NONE] = "no fault",
        [LIS_FAULT_TOO_LONG] = "the frame is too long",
        [LIS_FAULT_SHAPE] = "the bytes have not the shape of a frame",
        [LIS_FAULT_NUMBER] = "the frame's number is no digit from 0 to 7",
        [LIS_FAULT_FORBIDDEN] = "the frame has a byte that no text may hold",
        [LIS_FAULT_SUM] = "the checksum does not match",
    };
    return WORDS(words, fault);
}

const char *lis_phase_text(lis_phase phase) {
    static const char *const words[] = {
        [LIS_PHASE_NEUTRAL] = "neutral",
        [LIS_PHASE_AWAIT_LINE] = "awaits the reply to ENQ",
        [LIS_PHASE_BUSY] = "waits: the computer is busy",
        [LIS_PHASE_CONTENTION] = "waits: the computer asks for the line too",
        [LIS_PHASE_AWAIT_REPLY] = "awaits the reply to a frame",
    };
    return WORDS(words, phase);
}

const char *lis_outcome_text(lis_outcome outcome) {
    static const char *const words[] = {
        [LIS_OUTCOME_NONE] = "no session has ended",
        [LIS_OUTCOME_DONE] = "all texts are acknowledged",
        [LIS_OUTCOME_TIMED_OUT] = "no reply in time",
        [LIS_OUTCOME_SIX_TRIES] = "a frame was not acknowledged six times",
        [LIS_OUTCOME_RESTARTED] = "restarted",
    };
    return WORDS(words, outcome);
}

const char *lis_note_text(lis_note note) {
    static const char *const words[] = {
        [LIS_NOTE_QUIET] = "quiet",
        [LIS_NOTE_OPENED] = "session opened",
        [LIS_NOTE_NOT_READY] = "not ready",
        [LIS_NOTE_ENDED] = "session ended",
        [LIS_NOTE_ACCEPTED] = "frame accepted",
        [LIS_NOTE_DUPLICATE] = "duplicate frame",
        [LIS_NOTE_OUT_OF_TURN] = "frame out of turn",
        [LIS_NOTE_REFUSED] = "bad frame",
        [LIS_NOTE_NO_ROOM] = "no room",
        [LIS_NOTE_TOO_LONG] = "text too long",
        [LIS_NOTE_TOO_MANY] = "too many frames",
        [LIS_NOTE_OUT_OF_MEMORY] = "out of memory",
        [LIS_NOTE_TIMED_OUT] = "timed out",
    };
    return WORDS(words, note);
}

const char *lis_ready_text(lis_ready readiness) {
    static const char *const words[] = {
        [LIS_READY_YES] = "ready",
        [LIS_READY_BUSY] = "busy",
        [LIS_READY_CONTENDING] = "contending",
    };
    return WORDS(words, readiness);
}

const char *lis_role_text(lis_role role) {
    static const char *const words[] = {
        [LIS_ROLE_ANALYZER] = "analyzer",
        [LIS_ROLE_COMPUTER] = "computer",
    };
    return WORDS(words, role);
}

const char *lis_found_text(lis_found_kind kind) {
    static const char *const words[] = {
        [LIS_FOUND_NOTHING] = "no record yet",
        [LIS_FOUND_RECORD] = "record",
        [LIS_FOUND_REFUSED] = "record rejected",
    };
    return WORDS(words, kind);
}

const char *lis_reason_text(lis_reason reason) {
    static const char *const words[] = {
        [LIS_REASON_NONE] = "no fault",
        [LIS_REASON_BAD_RECORD] = "the text is not a record",
        [LIS_REASON_NOT_HEADER] = "outside a message a header comes first",
        [LIS_REASON_NO_PARENT] = "the record has no parent in the message",
        [LIS_REASON_SECOND_HEADER] = "the message already has its header",
        [LIS_REASON_UNFINISHED] = "the message or the record isn't ended",
        [LIS_REASON_TOO_LONG] = "the record is too long",
        [LIS_REASON_OUT_OF_MEMORY] = "out of memory",
    };
    return WORDS(words, reason);
}
