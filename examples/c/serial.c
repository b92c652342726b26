/* A serial port as the standard has it (LIS01-A2, 5.2): raw bytes, 8 data bits, no parity, one stop bit. */
#include "loops.h"
#include <fcntl.h>
#include <termios.h>
#include <unistd.h>

/* No byte is changed, added, dropped or taken as a command on its way, and none is echoed. */
static bool make_raw(int port, unsigned speed) {
    struct termios mode;
    if (tcgetattr(port, &mode) != 0)
        return false;
    mode.c_iflag &= ~(tcflag_t)(IGNBRK | BRKINT | PARMRK | INPCK | ISTRIP | INLCR | IGNCR | ICRNL);
    mode.c_iflag &= ~(tcflag_t)(IXON | IXOFF | IXANY);
    mode.c_oflag &= ~(tcflag_t)OPOST;
    mode.c_lflag &= ~(tcflag_t)(ECHO | ECHONL | ICANON | ISIG | IEXTEN);
    mode.c_cflag &= ~(tcflag_t)(CSIZE | PARENB | CSTOPB);
    mode.c_cflag |= CS8 | CREAD | CLOCAL;
    mode.c_cc[VMIN] = 1;
    mode.c_cc[VTIME] = 0;
    return cfsetispeed(&mode, speed) == 0 && cfsetospeed(&mode, speed) == 0 && tcsetattr(port, TCSANOW, &mode) == 0;
}

int open_serial(const char *path, unsigned speed, int percent) {
    int port = open(path, O_RDWR | O_NOCTTY | O_CLOEXEC);
    if (port < 0)
        return -1;
    if (make_raw(port, speed)) {
        /* An earlier session may have left a reply on its way: it comes before this time, and is dropped. */
        long long wait = LIS_SECONDS_RECEIVER * 10LL * percent;
        struct timespec pause = {wait / 1000, wait % 1000 * 1000000};
        if (nanosleep(&pause, NULL) == 0 && tcflush(port, TCIOFLUSH) == 0)
            return port;
    }
    close(port);
    return -1;
}
