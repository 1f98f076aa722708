/* picolibc declares these, and timers, only for systems that say that they have timers. */
#include_next <time.h>

#ifndef _GUEST_TIME_H_
#define _GUEST_TIME_H_

#include <sys/cdefs.h>
#include <sys/types.h>

#ifndef CLOCK_REALTIME
#define CLOCK_REALTIME ((clockid_t)1)
#endif
#ifndef CLOCK_MONOTONIC
#define CLOCK_MONOTONIC ((clockid_t)4)
#endif

__BEGIN_DECLS
int clock_gettime(clockid_t __clock, struct timespec *__now);
int clock_getres(clockid_t __clock, struct timespec *__resolution);
int nanosleep(const struct timespec *__wanted, struct timespec *__left);
__END_DECLS

#endif
