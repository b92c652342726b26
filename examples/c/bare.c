/* Without a C library and without a heap: a scanner hears a frame that lis_frame_write wrote, and a sender sends texts
 * from read-only memory to a receiver and to a station, whose texts lie in buffers of this file. It takes the proved
 * code as assembler, and a heap that has only what is lent:
 *
 *     cc -nostdlib -static -ffreestanding -DLIS_NO_MALLOC -Iinclude examples/c/bare.c src/c/heap.c src/c/lent.c \
 *         dist/x86_64-linux/lis_c.s
 *
 * Only its start and its end are Linux's: the exit status is 0 where all went well, else the number of what did not. */
#include "lislink.h"

/* The three copies that a compiler expects of every program. */
void *memcpy(void *to, const void *from, size_t n) {
    char *a = to;
    const char *b = from;
    while (n--)
        *a++ = *b++;
    return to;
}

void *memmove(void *to, const void *from, size_t n) {
    char *a = to;
    const char *b = from;
    if (a < b)
        return memcpy(to, from, n);
    while (n--)
        a[n] = b[n];
    return to;
}

void *memset(void *to, int byte, size_t n) {
    char *a = to;
    while (n--)
        *a++ = (char)byte;
    return to;
}

static bool same(const uint8_t *a, const uint8_t *b, size_t n) {
    while (n > 0 && *a == *b)
        a++, b++, n--;
    return n == 0;
}

/* The blocks, by the constants of the header. */
static _Alignas(LIS_BLOCK_ALIGN) uint8_t scanner_block[LIS_SCANNER_BLOCK], sender_block[LIS_SENDER_BLOCK];
static _Alignas(LIS_BLOCK_ALIGN) uint8_t receiver_block[LIS_RECEIVER_BLOCK], station_block[LIS_STATION_BLOCK];
static lis_bytes out;
static lis_signal signal;
static uint8_t text[1000], received[2002], kept[1000];

static int hear_a_frame(void) {
    static const uint8_t header[] = "H|\\^&\r";
    lis_scanner scanner = {scanner_block};
    size_t place;
    if (lis_scanner_size() > sizeof scanner_block || LIS_BLOCK_ALIGN % lis_scanner_align() != 0)
        return 1;
    lis_scanner_init(scanner.at);
    if (lis_frame_write(1, true, header, 6, &out, &place) != LIS_STATUS_OK)
        return 2;
    if (lis_scanner_feed(&scanner, out.bytes, out.len, &signal) != out.len || signal.kind != LIS_SIGNAL_FRAME)
        return 3;
    if (signal.len != 6 || !same(signal.text, header, 6) || !signal.last || signal.number != 1)
        return 4;
    lis_scanner_end(scanner);
    return 0;
}

/* Sends texts to a receiver, or to a station if there is no receiver; 0 if all of them were acknowledged. */
static int send_to(lis_receiver *receiver, lis_station *station, const lis_text *texts, size_t texts_len) {
    lis_sender sender = {sender_block};
    lis_place fault;
    lis_sender_init(sender.at);
    if (lis_sender_start_lent(&sender, texts, texts_len, &out, &fault) != LIS_STATUS_OK)
        return 1;
    while (lis_sender_phase(&sender) != LIS_PHASE_NEUTRAL) {
        static lis_answer answer;
        size_t heard = receiver != NULL ? lis_receiver_hear(receiver, out.bytes, out.len, &answer.step)
                                        : lis_station_hear(station, out.bytes, out.len, &answer);
        if (heard != out.len || answer.step.reply == 0)
            return 2;
        lis_sender_reply(&sender, answer.step.reply, &out);
    }
    lis_outcome outcome = lis_sender_outcome(&sender);
    lis_sender_end(sender);
    return outcome == LIS_OUTCOME_DONE ? 0 : 3;
}

/* Texts of 1,000 bytes, the longest for which the receiver's buffer has room. */
static int carry_a_text(void) {
    lis_receiver receiver = {receiver_block};
    lis_text texts[] = {{text, sizeof text}, {text, sizeof text}, {text, sizeof text}};
    if (lis_sender_size() > sizeof sender_block || lis_receiver_size() > sizeof receiver_block)
        return 5;
    lis_receiver_init(receiver.at);
    if (lis_receiver_lend(&receiver, received, sizeof received) != LIS_STATUS_OK)
        return 6;
    lis_receiver_set_careful(&receiver, true);    /* a damaged byte acknowledges nothing */
    memset(text, 'x', sizeof text);
    int failed = send_to(&receiver, NULL, texts, 3);
    if (failed != 0 || lis_receiver_text_len(&receiver) != sizeof text)
        return 7;
    if (lis_receiver_text(&receiver, kept, sizeof kept) != LIS_STATUS_OK || !same(kept, text, sizeof text))
        return 8;
    lis_receiver_end(receiver);
    return 0;
}

/* The same to a station. */
static int carry_to_a_station(void) {
    lis_station station = {station_block};
    lis_text texts[] = {{text, sizeof text}, {text, sizeof text}, {text, sizeof text}};
    if (lis_station_size() > sizeof station_block)
        return 9;
    lis_station_init(station.at);
    if (lis_station_lend(&station, LIS_ROLE_COMPUTER, received, sizeof received) != LIS_STATUS_OK)
        return 10;
    lis_station_set_careful(&station, true);
    if (send_to(NULL, &station, texts, 3) != 0 || lis_station_text_len(&station) != sizeof text)
        return 11;
    lis_station_end(station);
    return 0;
}

/* Texts in read-only memory are sent from where they are. */
static int send_lent_texts(void) {
    static const uint8_t header[] = "H|\\^&\r", end[] = "L|1|N\r";
    static const uint8_t first[] = "\0021H|\\^&\r\003E5\r\n", second[] = "\0022L|1|N\r\00305\r\n";
    static const lis_text texts[] = {{header, 6}, {end, 6}};
    lis_sender sender = {sender_block};
    lis_place fault;
    lis_sender_init(sender.at);
    if (lis_sender_start_lent(&sender, texts, 2, &out, &fault) != LIS_STATUS_OK || out.len != 1 || out.bytes[0] != 5)
        return 12;
    lis_sender_reply(&sender, 6, &out);
    if (out.len != sizeof first - 1 || !same(out.bytes, first, out.len))
        return 13;
    lis_sender_reply(&sender, 6, &out);
    if (out.len != sizeof second - 1 || !same(out.bytes, second, out.len))
        return 14;
    lis_sender_reply(&sender, 6, &out);
    if (out.len != 1 || out.bytes[0] != 4 || lis_sender_outcome(&sender) != LIS_OUTCOME_DONE)
        return 15;
    lis_sender_end(sender);
    return 0;
}

static int run(void) {
    int failed = hear_a_frame();
    if (failed == 0)
        failed = carry_a_text();
    if (failed == 0)
        failed = carry_to_a_station();
    return failed != 0 ? failed : send_lent_texts();
}

static _Noreturn void leave(int status) {
#ifdef __x86_64__
    __asm__ volatile("syscall" : : "a"(60), "D"(status) : "rcx", "r11", "memory");
#else
    register long x0 __asm__("x0") = status;
    register long x8 __asm__("x8") = 93;
    __asm__ volatile("svc 0" : : "r"(x0), "r"(x8) : "memory");
#endif
    __builtin_unreachable();
}

#ifdef __x86_64__
__attribute__((force_align_arg_pointer))
#endif
_Noreturn void _start(void) {
    leave(run());
}
