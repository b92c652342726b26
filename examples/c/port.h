/* How a sample reaches an analyzer over TCP: a port of this machine for one connection. And the clock that it uses. */
#ifndef PORT_H
#define PORT_H

#include <arpa/inet.h>
#include <poll.h>
#include <stdbool.h>
#include <stdint.h>
#include <stdio.h>
#include <sys/socket.h>
#include <time.h>
#include <unistd.h>

#ifndef CLOCK_BOOTTIME
#define CLOCK_BOOTTIME CLOCK_MONOTONIC
#endif

/* Seconds of a clock that runs on while the machine is suspended: what came before is late then. */
static inline time_t now(void) {
    struct timespec now;
    clock_gettime(CLOCK_BOOTTIME, &now);
    return now.tv_sec;
}

/* The line of the first analyzer that connects to a port; port 0 is one that is free, and is printed. -1 if it fails. */
static inline int accept_one(uint16_t port) {
    struct sockaddr_in at = {.sin_family = AF_INET, .sin_port = htons(port)};
    socklen_t size = sizeof at;
    int server = socket(AF_INET, SOCK_STREAM, 0), again = 1, line;
    at.sin_addr.s_addr = htonl(INADDR_LOOPBACK);
    if (server < 0 || setsockopt(server, SOL_SOCKET, SO_REUSEADDR, &again, sizeof again) != 0
        || bind(server, (struct sockaddr *)&at, size) != 0 || listen(server, 1) != 0
        || getsockname(server, (struct sockaddr *)&at, &size) != 0)
        return -1;
    if (port == 0) {
        printf("port %d\n", ntohs(at.sin_port));
        fflush(stdout);
    }
    line = accept(server, NULL, NULL);
    close(server);    /* the next program may have the port */
    return line;
}

/* Sends a byte; whether the line takes it. A line that the other side closed ends no program. */
static inline bool put(int line, uint8_t byte) {
    return send(line, &byte, 1, MSG_NOSIGNAL) == 1;
}

/* Reads what came: how much, 0 at the end. It came after `empty`, when the line was last seen empty; what the next read
 * gives came after `next`. */
static inline ssize_t read_some(int line, uint8_t *bytes, size_t room, time_t *empty, time_t *next) {
    struct pollfd ready = {line, POLLIN, 0};
    for (time_t before = now(); poll(&ready, 1, 1000) == 0; before = now())
        *empty = before;                              /* there was nothing yet */
    time_t before = now();
    ssize_t got = read(line, bytes, room);
    *next = got < (ssize_t)room ? before : *empty;    /* a full buffer may have left some */
    return got;
}

#endif
