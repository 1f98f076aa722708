/* A condition that threads wait for. Who waits draws a number, and numbers are released in their
   order, so nobody who comes later takes a signal away from one who waits. */
#ifndef LIBC_CONDITION_H
#define LIBC_CONDITION_H

#include <stdint.h>

/* struct __condition; all zeros is one that nobody waits for. */
#include <machine/_threads.h>

/* Draws a number: no signal is missed that comes after. The caller still holds its mutex. */
uint32_t condition_enter(struct __condition *condition);

/* Sleeps until the number is released. The caller has given its mutex back. */
void condition_sleep(struct __condition *condition, uint32_t number);

/* Releases those that wait, but `most` at most. */
void condition_release(struct __condition *condition, uint32_t most);

#endif
