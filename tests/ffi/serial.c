/* A port that examples/c/serial.c opened: each byte goes over it unchanged in both directions, none is echoed, and what
 * came before it was opened is dropped. */
#define _XOPEN_SOURCE 700
#include "../../examples/c/loops.h"
#include <fcntl.h>
#include <poll.h>
#include <stdio.h>
#include <stdlib.h>
#include <string.h>
#include <termios.h>
#include <unistd.h>

/* All bytes from one end to the other, and no more. */
static bool goes(int from, int to) {
    uint8_t sent[256], heard[257];
    size_t count = 0;
    for (int i = 0; i < 256; i++)
        sent[i] = (uint8_t)i;
    if (write(from, sent, sizeof sent) != (ssize_t)sizeof sent)
        return false;
    for (struct pollfd ready = {to, POLLIN, 0}; count < sizeof heard && poll(&ready, 1, count < sizeof sent ? 5000 : 200) == 1;) {
        ssize_t got = read(to, heard + count, sizeof heard - count);
        if (got <= 0)
            return false;
        count += (size_t)got;
    }
    return count == sizeof sent && memcmp(sent, heard, count) == 0;
}

int main(void) {
    int other = posix_openpt(O_RDWR | O_NOCTTY);
    if (other < 0 || grantpt(other) != 0 || unlockpt(other) != 0)
        return 2;
    char name[64];
    snprintf(name, sizeof name, "%s", ptsname(other));
    struct pollfd before = {open(name, O_RDWR | O_NOCTTY), POLLIN, 0};
    if (before.fd < 0 || write(other, "\006\n", 2) != 2 || poll(&before, 1, 5000) != 1)    /* a reply that is late */
        return 2;
    struct termios mode;
    if (tcgetattr(before.fd, &mode) != 0)
        return 2;
    mode.c_cflag |= CSTOPB;
    if (tcsetattr(before.fd, TCSANOW, &mode) != 0)
        return 2;
    int port = open_serial(name, B9600, 0);
    if (port < 0 || tcgetattr(port, &mode) != 0 || cfgetospeed(&mode) != B9600 || cfgetispeed(&mode) != B9600)
        return 3;
    if ((mode.c_cflag & (CSTOPB | CLOCAL)) != CLOCAL)    /* the others can't be set on a pseudo-terminal */
        return 4;
    /* The terminal echoed the late reply before it was raw. */
    char echo[16];
    struct pollfd echoed = {other, POLLIN, 0};
    while (poll(&echoed, 1, 200) == 1)
        if (read(other, echo, sizeof echo) <= 0)
            return 5;
    bool in = goes(other, port), out = goes(port, other);
    printf("%s %s\n", in ? "in" : "not in", out ? "out" : "not out");
    return 0;
}
