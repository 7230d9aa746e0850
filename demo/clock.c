// A clock that stands at the seconds in the variable NOW, for runs over many nights: a library that is loaded before a
// program (`cc -shared -fPIC`).
#include <stdlib.h>
#include <sys/syscall.h>
#include <sys/time.h>
#include <time.h>
#include <unistd.h>
static int now(long *seconds) {
    const char *text = getenv("NOW");
    if (text) *seconds = atol(text);
    return text != 0;
}
int clock_gettime(clockid_t clock, struct timespec *at) {
    at->tv_nsec = 0;
    return clock == CLOCK_REALTIME && now(&at->tv_sec) ? 0 : syscall(SYS_clock_gettime, clock, at);
}
int gettimeofday(struct timeval *at, void *zone) {
    at->tv_usec = 0;
    return now(&at->tv_sec) ? 0 : syscall(SYS_gettimeofday, at, zone);
}
time_t time(time_t *at) {
    long seconds;
    if (!now(&seconds)) syscall(SYS_time, &seconds);
    if (at) *at = seconds;
    return seconds;
}
