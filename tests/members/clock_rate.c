/* CLOCK_BOOTTIME at another rate, for one process and all that it starts: a library that is preloaded, in tests alone.
   The clock shows CLOCK_SINCE then, by the kernel's clock, and runs at CLOCK_RATE from then on. Timers that end at a
   moment of that clock do so. The kernel's clock is shown as CLOCK_BOOTTIME_ALARM. */
#define _GNU_SOURCE
#include <stdint.h>
#include <stdlib.h>
#include <sys/syscall.h>
#include <sys/timerfd.h>
#include <time.h>
#include <unistd.h>

#define SECOND 1000000000

static double rate = 1;
static int64_t since;

__attribute__((constructor)) static void read_environment(void) {
    const char *told = getenv("CLOCK_RATE"), *start = getenv("CLOCK_SINCE");
    if (told != NULL && start != NULL) {
        rate = strtod(told, NULL);
        since = strtoll(start, NULL, 10);
    }
}

static int64_t nanoseconds(const struct timespec *time) {
    return time->tv_sec * (int64_t)SECOND + time->tv_nsec;
}

static struct timespec time_of(int64_t nanoseconds) {
    return (struct timespec){nanoseconds / SECOND, nanoseconds % SECOND};
}

int clock_gettime(clockid_t clock, struct timespec *time) {
    int status = (int)syscall(SYS_clock_gettime, clock == CLOCK_BOOTTIME_ALARM ? CLOCK_BOOTTIME : clock, time);
    if (status == 0 && clock == CLOCK_BOOTTIME) {
        *time = time_of(since + (int64_t)(rate * (double)(nanoseconds(time) - since)));
    }
    return status;
}

/* Each absolute timer of the package is one of CLOCK_BOOTTIME. */
int timerfd_settime(int timer, int flags, const struct itimerspec *wanted, struct itimerspec *before) {
    struct itimerspec setting = *wanted;
    int64_t end = nanoseconds(&wanted->it_value);
    if ((flags & TFD_TIMER_ABSTIME) != 0 && end != 0) {
        setting.it_value = time_of(since + (int64_t)((double)(end - since) / rate) + 1);
    }
    return (int)syscall(SYS_timerfd_settime, timer, flags, &setting, before);
}
