/* The clock, and waiting for it. */
#include <errno.h>
#include <sched.h>
#include <stddef.h>
#include <sys/time.h>
#include <sys/times.h>
#include <time.h>
#include <unistd.h>

#include "calls.h"

enum { NANOSECONDS = 1000000000 };

/* Reads the clock in nanoseconds since 1970; false where the kernel has none. A reading's high word
   is never all ones, which is what a1 holds before. */
static int read_clock(uint64_t *nanoseconds) {
  struct answer answer = call_for_two(CALL_CLOCK, 0, UINT32_MAX, 0);
  if (answer.second == UINT32_MAX) return or_errno(answer.first) >= 0;
  *nanoseconds = (uint64_t)answer.second << 32 | (uint32_t)answer.first;
  return 1;
}

int gettimeofday(struct timeval *restrict time, void *restrict zone) {
  uint64_t now = 0;
  (void)zone;
  if (!read_clock(&now)) {
    time->tv_sec = -1;
    time->tv_usec = 0;
    return -1;
  }
  time->tv_sec = (time_t)(now / NANOSECONDS);
  time->tv_usec = (suseconds_t)(now % NANOSECONDS / 1000);
  return 0;
}

/* The time since the first call counts as this process's, in parts of CLOCKS_PER_SEC; clock asks
   for it. */
clock_t times(struct tms *used) {
  static uint64_t first;
  uint64_t now = 0;
  if (!read_clock(&now)) {
    used->tms_utime = (clock_t)-1;
    used->tms_stime = used->tms_cutime = used->tms_cstime = 0;
    return (clock_t)-1;
  }
  if (first == 0) first = now;
  used->tms_utime = (clock_t)((now - first) / (NANOSECONDS / CLOCKS_PER_SEC));
  used->tms_stime = used->tms_cutime = used->tms_cstime = 0;
  return used->tms_utime;
}

/* The one clock there is. */
int clock_gettime(clockid_t clock, struct timespec *now) {
  uint64_t nanoseconds = 0;
  if (clock != CLOCK_REALTIME && clock != CLOCK_MONOTONIC) {
    errno = EINVAL;
    return -1;
  }
  if (!read_clock(&nanoseconds)) return -1;
  now->tv_sec = (time_t)(nanoseconds / NANOSECONDS);
  now->tv_nsec = (long)(nanoseconds % NANOSECONDS);
  return 0;
}

int clock_getres(clockid_t clock, struct timespec *resolution) {
  if (clock != CLOCK_REALTIME && clock != CLOCK_MONOTONIC) {
    errno = EINVAL;
    return -1;
  }
  if (resolution != NULL) *resolution = (struct timespec){.tv_nsec = 1};
  return 0;
}

/* ---- waiting: nothing sleeps for a time, so these yield once, for the rest of a round ---- */

int sched_yield(void) {
  return call(CALL_YIELD, 0, 0, 0);
}

int nanosleep(const struct timespec *wanted, struct timespec *left) {
  if (wanted->tv_nsec < 0 || wanted->tv_nsec >= NANOSECONDS || wanted->tv_sec < 0) {
    errno = EINVAL;
    return -1;
  }
  if (left != NULL) *left = (struct timespec){0};
  return sched_yield();
}

int usleep(useconds_t microseconds) {
  (void)microseconds;
  return sched_yield();
}

unsigned sleep(unsigned seconds) {
  (void)seconds;
  sched_yield();
  return 0;
}
