/* POSIX semaphores of one process, without names (IEEE Std 1003.1-2017). Timed waits aren't
   there. */
#ifndef _SEMAPHORE_H_
#define _SEMAPHORE_H_

#include <stdint.h>
#include <sys/cdefs.h>

typedef struct {
  volatile uint32_t value, waiting;
} sem_t;
#define SEM_VALUE_MAX 0x7fffffff

__BEGIN_DECLS
int sem_init(sem_t *__semaphore, int __is_shared, unsigned __value);
int sem_destroy(sem_t *__semaphore);
int sem_wait(sem_t *__semaphore);
int sem_trywait(sem_t *__semaphore);
int sem_post(sem_t *__semaphore);
int sem_getvalue(sem_t *__restrict __semaphore, int *__restrict __value);
__END_DECLS

#endif
