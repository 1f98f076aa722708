/* A lock that is given in the order in which it was asked for: who asks draws a number and waits
   until it is called. So no thread is kept from it for ever by one that takes it again at once,
   whatever the quantum is. */
#ifndef LIBC_LOCK_H
#define LIBC_LOCK_H

#include <stdbool.h>
#include <stdint.h>

/* struct __lock; all zeros is one that nobody holds. stdio and malloc know it by this name too. */
#include <machine/_threads.h>

/* Takes the lock, waiting for its turn. A thread that holds it already waits for ever. */
void lock_take(struct __lock *lock);

/* Takes the lock where nobody holds it or waits for it, and answers whether it did. */
bool lock_try(struct __lock *lock);

/* Gives the lock back. The caller holds it. */
void lock_release(struct __lock *lock);

/* The same for a lock that its owner may take again: it is free when it was given back as often as
   it was taken. */
void lock_take_again(struct __lock *lock);
bool lock_try_again(struct __lock *lock);
void lock_release_again(struct __lock *lock);

/* Whether the calling thread holds a lock that it took by lock_take_again; whether anybody holds
   or waits for the lock. */
bool lock_is_mine(const struct __lock *lock);
bool lock_is_taken(const struct __lock *lock);

#endif
