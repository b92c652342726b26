/* The loops of examples/c in a program with a signal that comes often: an analyzer whose host is silent times out, one
 * whose host is busy gives up, and a host's timer closes the line of an analyzer that is silent. Prints 'a timeout, a
 * busy host, a closed line'. */
#include "../../examples/c/loops.h"
#include <poll.h>
#include <signal.h>
#include <stdio.h>
#include <stdlib.h>
#include <string.h>
#include <sys/socket.h>
#include <sys/time.h>
#include <sys/wait.h>
#include <unistd.h>

enum { PERCENT = 2 };    /* of the standard's timers: 300 ms for a reply, 600 for a receiver */

static void nothing(int number) {
    (void)number;
}

/* A signal each 20 ms, which restarts no call. */
static void be_disturbed(void) {
    struct sigaction action = {.sa_handler = nothing};
    struct itimerval often = {{0, 20000}, {0, 20000}};
    if (sigaction(SIGALRM, &action, NULL) != 0 || setitimer(ITIMER_REAL, &often, NULL) != 0)
        exit(2);
}

static bool keeps(void *keeper, const uint8_t *text, size_t len) {
    (void)keeper;
    (void)text;
    (void)len;
    return true;
}

/* How the analyzer's session ends on a line whose other side is silent. */
static int analyzer_ends(void) {
    static const char *const texts[] = {"H|\\^&\r"};
    int line[2];
    if (socketpair(AF_UNIX, SOCK_STREAM, 0, line) != 0)
        exit(2);
    be_disturbed();
    int outcome = analyzer(line[0], texts, 1, PERCENT);
    close(line[0]);
    close(line[1]);
    return outcome;
}

/* How many ENQs an analyzer sends to a host that is busy, and then gives up; 0 if its session ends otherwise. */
static int busy_asked(void) {
    static const char *const texts[] = {"H|\\^&\r"};
    static const char nak = 21;
    int line[2], asked = 0, ended;
    char byte;
    if (socketpair(AF_UNIX, SOCK_STREAM, 0, line) != 0)
        exit(2);
    pid_t child = fork();
    if (child == 0) {
        close(line[1]);
        be_disturbed();
        _exit(analyzer(line[0], texts, 1, PERCENT) == -1 ? 0 : 1);
    }
    close(line[0]);
    while (asked < 10 && read(line[1], &byte, 1) == 1 && byte == 5 && write(line[1], &nak, 1) == 1)
        asked++;
    close(line[1]);
    return waitpid(child, &ended, 0) == child && WIFEXITED(ended) && WEXITSTATUS(ended) == 0 ? asked : 0;
}

/* The byte that the line gives within a time, 0 if none comes. */
static char told(int line, int time) {
    struct pollfd ready = {line, POLLIN, 0};
    char byte = 0;
    return poll(&ready, 1, time) == 1 && read(line, &byte, 1) == 1 ? byte : 0;
}

/* Whether a host, in a process of its own, acknowledges ENQ, closes the line after its timer, and hears the next ENQ. */
static bool host_closes(void) {
    static const char enq = 5, late[] = "\x02" "1A\x03" "75\r\n";
    int line[2], ended;
    if (socketpair(AF_UNIX, SOCK_STREAM, 0, line) != 0)
        exit(2);
    pid_t child = fork();
    if (child == 0) {
        close(line[1]);
        be_disturbed();
        _exit(host(line[0], keeps, NULL, PERCENT) == 0 ? 0 : 1);
    }
    close(line[0]);
    bool good = write(line[1], &enq, 1) == 1 && told(line[1], 5000) == 6;
    nanosleep(&(struct timespec){1, 0}, NULL);
    good = good && write(line[1], late, strlen(late)) == (ssize_t)strlen(late) && told(line[1], 300) == 0;
    good = good && write(line[1], &enq, 1) == 1 && told(line[1], 5000) == 6;
    close(line[1]);
    return waitpid(child, &ended, 0) == child && good && WIFEXITED(ended) && WEXITSTATUS(ended) == 0;
}

int main(void) {
    signal(SIGPIPE, SIG_IGN);
    bool closes = host_closes();
    int asked = busy_asked(), outcome = analyzer_ends();
    if (outcome != LIS_OUTCOME_TIMED_OUT || asked != 3 || !closes) {
        fprintf(stderr, "the analyzer's outcome is %d, it asks %d times, the host %s\n", outcome, asked,
                closes ? "is good" : "fails");
        return 1;
    }
    puts("a timeout, a busy host, a closed line");
    return 0;
}
