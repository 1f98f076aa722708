/* How a thread waits for another: all waiting of locks and threads goes through these. */
#ifndef LIBC_WAIT_H
#define LIBC_WAIT_H

#include <stdint.h>

/* Waits while the word is `value`. It may come back early: who calls it looks again. */
void wait_while(volatile uint32_t *word, uint32_t value);

/* Wakes all that wait for the word, which the caller has just changed. */
void wake_all(volatile uint32_t *word);

/* Wakes the one that has waited longest. */
void wake_one(volatile uint32_t *word);

/* Stores `value` in the word, wakes all that wait for it, and ends the calling thread. From the
   store on another thread may take away the stack, so nothing here uses it. */
_Noreturn void end_thread(volatile uint32_t *word, uint32_t value);

#endif
