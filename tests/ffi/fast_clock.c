/* A clock that runs ten times as fast, for a program that LD_PRELOAD gives it: a timer of 30 seconds takes 3. */
#include <sys/syscall.h>
#include <time.h>
#include <unistd.h>

int clock_gettime(clockid_t kind, struct timespec *at) {
    const long long second = 1000000000;
    if (syscall(SYS_clock_gettime, kind, at) != 0)
        return -1;
    if (kind == CLOCK_MONOTONIC || kind == CLOCK_BOOTTIME) {
        long long fast = (at->tv_sec * second + at->tv_nsec) * 10;
        at->tv_sec = (time_t)(fast / second);
        at->tv_nsec = (long)(fast % second);
    }
    return 0;
}
