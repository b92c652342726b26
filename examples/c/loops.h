/* The two ends of a line over a file descriptor: a serial port, a socket, a pipe. `percent` of the standard's timers
 * is waited, so that a test can be short: 100 on a real line. A program ignores SIGPIPE, so that a closed line is a
 * failed write. */
#ifndef LOOPS_H
#define LOOPS_H

#include "lislink.h"
#include <time.h>

/* Sends texts in one session; a lis_outcome, or -1 if the line is closed, the host is busy at three ENQs, or there is no
 * memory. After any other outcome than LIS_OUTCOME_DONE a late reply may be on its way: no session may start on this
 * line again. */
int analyzer(int line, const char *const *texts, size_t count, int percent);

/* A line that is taken anew after a session that failed. `connect` gives a file descriptor on which no late reply can
 * come: a new connection, or open_serial; -1 if there is none. `fd` is -1 at first. */
typedef struct analyzer_line {
    int (*connect)(void *how);
    void *how;
    int fd;
} analyzer_line;

/* Sends texts in one session, as `analyzer`, on a line that it connects if there is none, and closes if the session
 * failed. Call it again to try again. */
int deliver(analyzer_line *line, const char *const *texts, size_t count, int percent);

/* Opens a serial port, raw, 8 data bits, no parity, one stop bit, at a speed as B9600; -1 if it can't. Then it waits as
 * long as a late reply may take, and drops what came. */
int open_serial(const char *path, unsigned speed, int percent);

/* Keeps a text that is complete; false if it can't be kept. */
typedef bool host_takes(void *keeper, const uint8_t *text, size_t len);

/* Hears a line until it is closed, and gives each text to `takes` before it is acknowledged. A text that can't be kept
 * is not acknowledged, and no reply is sent that could come too late. 0, or -1 if the line fails or there is no
 * memory. */
int host(int line, host_takes *takes, void *keeper, int percent);

#ifndef CLOCK_BOOTTIME
#define CLOCK_BOOTTIME CLOCK_MONOTONIC
#endif

static inline long long milliseconds(void) {
    struct timespec now;
    clock_gettime(CLOCK_BOOTTIME, &now);    /* it runs on while the machine is suspended */
    return now.tv_sec * 1000LL + now.tv_nsec / 1000000;
}

#endif
