/* picolibc declares sched_yield only for systems that say that they have threads. */
#ifndef _GUEST_SCHED_H_
#define _GUEST_SCHED_H_

#include_next <sched.h>

__BEGIN_DECLS
int sched_yield(void);
__END_DECLS

#endif
