/* An analyzer and a host, two processes on one line: what was sent is what was delivered. */
#include "loops.h"
#include <stdio.h>
#include <string.h>
#include <sys/socket.h>
#include <sys/wait.h>
#include <unistd.h>

static const char *const texts[] = {"H|\\^&|||Analyzer\r", "P|1\r", "O|1|S7\r",
                                    "R|1|^^^GLU|5.4|mmol/L|3.9 to 6.1|N||F\r", "L|1|N\r"};
enum { COUNT = sizeof texts / sizeof texts[0] };

/* Compares a text with the one that is due. */
static bool takes(void *keeper, const uint8_t *text, size_t len) {
    size_t *next = keeper;
    if (*next >= COUNT || len != strlen(texts[*next]) || memcmp(text, texts[*next], len) != 0)
        return false;
    ++*next;
    return true;
}

int main(void) {
    int line[2], ended;
    size_t next = 0;
    if (socketpair(AF_UNIX, SOCK_STREAM, 0, line) != 0)
        return 2;
    pid_t child = fork();
    if (child < 0)
        return 2;
    if (child == 0) {
        close(line[1]);
        return analyzer(line[0], texts, COUNT, 2);
    }
    close(line[0]);
    int heard = host(line[1], takes, &next, 2);
    if (waitpid(child, &ended, 0) != child)
        return 2;
    if (heard != 0 || !WIFEXITED(ended) || WEXITSTATUS(ended) != LIS_OUTCOME_DONE || next != COUNT)
        return 1;
    printf("%zu texts went over\n", next);
    return 0;
}
