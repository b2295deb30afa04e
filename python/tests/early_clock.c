/* Has the system's clock stand in 1969: what LD_PRELOAD is for in test_session_survives.py. */
#define _GNU_SOURCE
#include <dlfcn.h>
#include <time.h>

int clock_gettime(clockid_t clock, struct timespec *time)
{
    int (*real)(clockid_t, struct timespec *) = dlsym(RTLD_NEXT, "clock_gettime");
    int status = real(clock, time);
    if (!status && clock == CLOCK_REALTIME) {
        time->tv_sec = -1000000;
        time->tv_nsec = 0;
    }
    return status;
}
