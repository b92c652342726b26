/* Replies that come late: late MODE SESSIONS SLOWER, over examples/c's analyzer and host, with timers of a few hundred
 * milliseconds, SLOWER times as long on a machine that has too much to do, on many lines of this machine at once.
 * Between the two a relay holds bytes back, also for longer than the sender's timer, and damages frames. MODE is
 *
 *   connect   TCP; the analyzer takes a new connection after a session that failed
 *   serial    a pseudo-terminal; it opens the port anew, which waits and drops what came
 *   host      no relay, one connection, a computer that is slow to keep a text: it sends no reply that is late
 *   old       as connect, but the old connection is used again, as it must not be
 *
 * It prints 'sessions S done D false F late L slow W': F counts the sessions that were done before the host had kept each
 * of their texts, L those that failed. A line promises that a reply comes within a time: W counts where the machine made
 * the relay or the host wait so long that the line may have broken its promise. */
#include "../../examples/c/loops.h"
#include <arpa/inet.h>
#include <fcntl.h>
#include <poll.h>
#include <pthread.h>
#include <signal.h>
#include <stdatomic.h>
#include <stdio.h>
#include <stdlib.h>
#include <string.h>
#include <sys/socket.h>
#include <termios.h>
#include <unistd.h>

enum { LANES = 32, MESSAGES = 400, MOST_TEXTS = 2, QUEUE = 4096 };
enum mode { CONNECT, SERIAL, HOST, OLD };
static const char *const names[] = {"connect", "serial", "host", "old"};

static enum mode mode;
static int percent, per_lane;
static atomic_int sessions, done, wrong, failed, slow;

/* Bytes on their way, each with the time when it may go on. */
struct queue {
    uint8_t bytes[QUEUE];
    long long due[QUEUE];
    size_t len;
};

struct lane {
    pthread_t analyzer, relay, host;
    unsigned seed, number;
    int listening, kept_line, hosts_line, relays_line;
    char port[64];
    atomic_uchar kept[MESSAGES];    /* a bit for each text that the host has */
};
static struct lane lanes[LANES];

static double chance(unsigned *seed) {
    return rand_r(seed) / (RAND_MAX + 1.0);
}

static long long timer(void) {
    return LIS_SECONDS_REPLY * 10LL * percent;
}

static void wait_for(long long pause) {
    struct timespec time = {pause / 1000, pause % 1000 * 1000000};
    nanosleep(&time, NULL);
}

static void fail(const char *what) {
    perror(what);
    exit(2);
}

/* The computer: a text is 'R|message|text'. */
static bool takes(void *keeper, const uint8_t *text, size_t len) {
    struct lane *lane = keeper;
    unsigned message, place;
    char words[32];
    if (len >= sizeof words)
        return false;
    memcpy(words, text, len);
    words[len] = 0;
    if (sscanf(words, "R|%u|%u", &message, &place) != 2 || message >= MESSAGES || place >= MOST_TEXTS)
        return false;
    if (mode == HOST && chance(&lane->seed) < 0.3)
        wait_for(timer() * 6 / 5);
    atomic_fetch_or(&lane->kept[message], (unsigned char)(1u << place));
    return true;
}

static void *hear(void *it) {
    struct lane *lane = it;
    int line = lane->hosts_line;
    host(line, takes, lane, percent);
    close(line);
    return NULL;
}

/* A host for a connection: it hears the other end of a new pair. */
static int with_host(struct lane *lane, pthread_t *thread) {
    int pair[2];
    if (socketpair(AF_UNIX, SOCK_STREAM, 0, pair) != 0)
        fail("socketpair");
    lane->hosts_line = pair[1];
    if (pthread_create(thread, NULL, hear, lane) != 0)
        fail("pthread_create");
    return pair[0];
}

/* Puts bytes to a queue, all of them to go on after a pause and after those before them. */
static void put(struct queue *queue, const uint8_t *bytes, size_t len, long long pause) {
    long long due = milliseconds() + pause;
    if (queue->len > 0 && queue->due[queue->len - 1] > due)
        due = queue->due[queue->len - 1];
    for (size_t i = 0; i < len && queue->len < QUEUE; i++) {
        queue->bytes[queue->len] = bytes[i];
        queue->due[queue->len++] = due;
    }
}

/* Sends on what is due; false if the line is closed. */
static bool send_on(struct queue *queue, int line) {
    long long now = milliseconds();
    size_t count = 0;
    while (count < queue->len && queue->due[count] <= now)
        count++;
    if (count > 0 && write(line, queue->bytes, count) != (ssize_t)count)
        return false;
    queue->len -= count;
    memmove(queue->bytes, queue->bytes + count, queue->len);
    memmove(queue->due, queue->due + count, queue->len * sizeof *queue->due);
    return true;
}

/* Reads what one end sent into a queue; false if it closed the line. */
static bool take(struct lane *lane, int line, struct queue *queue, bool replies) {
    uint8_t bytes[512];
    ssize_t got = read(line, bytes, sizeof bytes);
    if (got <= 0)
        return false;
    long long pause = 0;
    if (replies && chance(&lane->seed) < 0.3)
        pause = (long long)(timer() * 1.2 * chance(&lane->seed));
    if (!replies && chance(&lane->seed) < 0.2)
        pause = (long long)(timer() * 0.7 * chance(&lane->seed));
    if (!replies && bytes[0] == 2 && chance(&lane->seed) < 0.3)
        bytes[2] ^= 1;    /* the checksum shows it */
    put(queue, bytes, (size_t)got, pause);
    return true;
}

/* Counts a wait that is no part of what a line does: a third of the sender's timer, or longer. */
static void note_wait(long long since) {
    slow += milliseconds() - since > timer() / 3;
}

/* Carries bytes between an analyzer and its host until one of them closes the line. */
static void carry(struct lane *lane, int analyzers, int hosts) {
    static _Thread_local struct queue there, back;
    there.len = back.len = 0;
    long long asked = 0;    /* when the host got what it hasn't replied to; EOT has no reply */
    for (bool open = true; open;) {
        struct pollfd ready[] = {{analyzers, POLLIN, 0}, {hosts, POLLIN, 0}};
        long long begun = milliseconds();
        poll(ready, 2, 1);
        if (ready[0].revents)
            open = take(lane, analyzers, &there, false);
        if (open && ready[1].revents) {
            open = take(lane, hosts, &back, true);
            if (asked)
                note_wait(asked);
            asked = 0;
        }
        size_t held = there.len;
        uint8_t last = held > 0 ? there.bytes[held - 1] : 0;
        open = open && send_on(&there, hosts) && send_on(&back, analyzers);
        if (there.len < held && last != 4 && !asked)
            asked = milliseconds();
        note_wait(begun);
    }
}

/* The relay of TCP: one connection after another, each to a host of its own. */
static void *relay_connections(void *it) {
    struct lane *lane = it;
    for (int line; (line = accept(lane->listening, NULL, NULL)) >= 0; close(line)) {
        pthread_t thread;
        int hosts = with_host(lane, &thread);
        carry(lane, line, hosts);
        close(hosts);
        pthread_join(thread, NULL);
    }
    return NULL;
}

/* The relay of a serial line: one line for good. */
static void *relay_serial(void *it) {
    struct lane *lane = it;
    carry(lane, lane->relays_line, lane->kept_line);
    return NULL;
}

static int connect_tcp(void *how) {
    struct lane *lane = how;
    struct sockaddr_in to;
    socklen_t len = sizeof to;
    int line = socket(AF_INET, SOCK_STREAM, 0);
    if (line < 0 || getsockname(lane->listening, (struct sockaddr *)&to, &len) != 0
        || connect(line, (struct sockaddr *)&to, len) != 0)
        fail("connect");
    return line;
}

static int connect_old(void *how) {
    struct lane *lane = how;
    if (lane->kept_line < 0)
        lane->kept_line = connect_tcp(how);
    return dup(lane->kept_line);
}

static int connect_host(void *how) {
    return dup(((struct lane *)how)->kept_line);
}

static int connect_serial(void *how) {
    return open_serial(((struct lane *)how)->port, B9600, percent);
}

/* The analyzer of a lane: each message up to four times. */
static void *send_all(void *it) {
    static int (*const connects[])(void *) = {connect_tcp, connect_serial, connect_host, connect_old};
    struct lane *lane = it;
    analyzer_line line = {connects[mode], lane, -1};
    unsigned seed = lane->number * 2654435761u + 1;
    for (int used = 0, message = 0; used < per_lane && message < MESSAGES; message++) {
        char words[MOST_TEXTS][32];
        const char *texts[MOST_TEXTS];
        size_t count = 1 + (chance(&seed) < 0.3);
        for (size_t i = 0; i < count; i++) {
            snprintf(words[i], sizeof words[i], "R|%d|%zu\r", message, i);
            texts[i] = words[i];
        }
        int outcome = -1;
        for (int turn = 0; turn < 4 && outcome != LIS_OUTCOME_DONE && used < per_lane; turn++, used++) {
            outcome = deliver(&line, texts, count, percent);
            sessions++;
            failed += outcome != LIS_OUTCOME_DONE;
        }
        if (outcome == LIS_OUTCOME_DONE) {
            done++;
            wrong += lane->kept[message] != (1u << count) - 1;
        }
    }
    if (line.fd >= 0)
        close(line.fd);
    return NULL;
}

/* Makes the line of a lane, and starts what is between its ends. */
static void begin(struct lane *lane, unsigned number) {
    struct sockaddr_in at = {.sin_family = AF_INET, .sin_addr.s_addr = htonl(INADDR_LOOPBACK)};
    lane->number = lane->seed = number;
    lane->listening = lane->kept_line = -1;
    if (mode == SERIAL) {
        lane->relays_line = posix_openpt(O_RDWR | O_NOCTTY);
        if (lane->relays_line < 0 || grantpt(lane->relays_line) != 0 || unlockpt(lane->relays_line) != 0)
            fail("posix_openpt");
        snprintf(lane->port, sizeof lane->port, "%s", ptsname(lane->relays_line));
        if (open(lane->port, O_RDWR | O_NOCTTY) < 0)    /* stays open, so that the relay's end does */
            fail(lane->port);
        lane->kept_line = with_host(lane, &lane->host);
    } else if (mode == HOST) {
        lane->kept_line = with_host(lane, &lane->host);
    } else {
        lane->listening = socket(AF_INET, SOCK_STREAM, 0);
        if (bind(lane->listening, (struct sockaddr *)&at, sizeof at) != 0 || listen(lane->listening, 16) != 0)
            fail("listen");
    }
    void *(*relay)(void *) = mode == SERIAL ? relay_serial : relay_connections;
    if (mode != HOST && pthread_create(&lane->relay, NULL, relay, lane) != 0)
        fail("pthread_create");
}

int main(int count, char **words) {
    while (count == 4 && mode < OLD && strcmp(words[1], names[mode]) != 0)
        mode++;
    if (count != 4 || strcmp(words[1], names[mode]) != 0)
        return 2;
    signal(SIGPIPE, SIG_IGN);
    percent = (mode == HOST ? 4 : 1) * atoi(words[3]);
    per_lane = (atoi(words[2]) + LANES - 1) / LANES;
    for (unsigned i = 0; i < LANES; i++)
        begin(&lanes[i], i + 1);
    for (int i = 0; i < LANES; i++)
        if (pthread_create(&lanes[i].analyzer, NULL, send_all, &lanes[i]) != 0)
            fail("pthread_create");
    for (int i = 0; i < LANES; i++)
        pthread_join(lanes[i].analyzer, NULL);
    printf("sessions %d done %d false %d late %d slow %d\n", sessions, done, wrong, failed, slow);
    return 0;
}
