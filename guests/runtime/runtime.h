/* A small runtime for guests in C: text and numbers to the output, words that threads share, locks and threads,
   sleeping, memory, processes and signals. */
#ifndef RUNTIME_H
#define RUNTIME_H

#include <stdbool.h>
#include <stddef.h>
#include <stdint.h>

#include "services.h"

/* The size of a page in bytes. Owners have whole pages, so what two threads write often should stand on two pages. */
enum { PAGE_SIZE = 4096 };

/* Has a variable begin where a page begins. On its last page other variables may stand behind it. */
#define ON_A_PAGE __attribute__((aligned(PAGE_SIZE)))

/* The compiler calls these by itself; they are those of the C standard. */
void *memset(void *to, int byte, size_t length);
void *memcpy(void *restrict to, const void *restrict from, size_t length);
void *memmove(void *to, const void *from, size_t length);
int memcmp(const void *left, const void *right, size_t length);

/* Writes the text to the output, in as many services as it takes. */
void print(const char *text);

/* Writes a text in one service, so that no other thread's bytes come between: at most 256 bytes, in which %d stands for
   a number in decimal, %x for one as 0x and eight hexadecimal digits, %s for a text and %% for %. */
void print_line(const char *format, ...) __attribute__((format(printf, 1, 2)));

/* Writes the number in decimal. */
void print_decimal(int32_t number);

/* Writes the number as 0x and eight hexadecimal digits. */
void print_hexadecimal(uint32_t number);

/* Adds to the word in one instruction, amoadd.w, and answers what it was before. */
static inline uint32_t atomic_add(volatile uint32_t *word, uint32_t amount) {
  return __atomic_fetch_add(word, amount, __ATOMIC_SEQ_CST);
}

/* Stores `wanted` where the word is `expected`, by lr.w and sc.w, and answers whether it did. An sc.w that failed
   because a part ended behind the lr.w is tried again. */
static inline bool compare_exchange(volatile uint32_t *word, uint32_t expected, uint32_t wanted) {
  return __atomic_compare_exchange_n(word, &expected, wanted, false, __ATOMIC_SEQ_CST, __ATOMIC_SEQ_CST);
}

/* A lock; {0} is one that nobody holds. */
struct lock {
  volatile uint32_t is_held;
};

/* Takes the lock. While another thread holds it, this one looks once a round and yields. */
void lock_take(struct lock *lock);

/* Gives the lock back. The caller holds it. */
void lock_release(struct lock *lock);

/* How many threads of thread_start there is room for at a time, and the bytes of each one's stack: whole pages, so
   that no two threads share one. Each page takes a frame from the start, used or not. */
#ifndef POOL_THREADS
#define POOL_THREADS 8
#endif
#ifndef POOL_STACK
#define POOL_STACK PAGE_SIZE
#endif

/* Starts a thread that calls run(argument) and ends when that returns. Answers its place in the pool, for
   thread_join, or TOO_MANY where no place is free or the kernel makes no more threads. */
int32_t thread_start(void (*run)(uintptr_t argument), uintptr_t argument);

/* Waits until the thread in this place has ended, looking once a round, and frees the place. Each thread that was
   started is joined once at most. */
void thread_join(int32_t place);

/* Runs run(0), run(1) and so on to run(count - 1) in a thread each, and waits until all have ended. Answers whether all
   could be started; those that could are waited for in any case. */
bool run_threads(uint32_t count, void (*run)(uintptr_t number));

/* ---- sleeping ---- */

/* As many as there are, for dos_futex_wake. */
#define EVERYBODY 0xFFFFFFFFu

/* A mutex; {0} is one that nobody holds. It is given in the order in which it was asked for, so nobody is kept from it
   for ever; who waits sleeps. Where several ask again and again it is given once a round. It may stand in a page that
   processes share. */
struct mutex {
  volatile uint32_t drawn, called;
};

/* Takes the mutex. The caller doesn't hold it. */
void mutex_lock(struct mutex *mutex);

/* Gives the mutex back. The caller holds it. */
void mutex_unlock(struct mutex *mutex);

/* A condition that threads wait for; {0} is one that nobody waits for. */
struct condition {
  volatile uint32_t signals;
};

/* Gives the mutex back, sleeps until the condition is signalled, and takes the mutex again. No signal is missed that
   comes once the mutex is given back. It may come back without one, so the caller looks again, in a loop. */
void condition_wait(struct condition *condition, struct mutex *mutex);

/* Wakes the thread that has slept longest, or all of them. */
void condition_signal(struct condition *condition);
void condition_broadcast(struct condition *condition);

/* ---- memory ---- */

/* Answers a block of so many bytes that begins at a multiple of 16, or NULL where too few frames are free. A block of
   more than 1024 bytes has pages of its own, with 32 bytes of them used. */
void *malloc(size_t length);

/* Gives back a block of malloc, or nothing where it is NULL. Pages on which no block is left are unmapped. */
void free(void *block);

/* ---- processes and signals ---- */

/* As dos_wait, but goes on waiting where a handler has run. */
int32_t wait_for(int32_t process, int32_t *status);

/* Reads until so many bytes have come or there are no more; answers how many came, or a refusal. */
int32_t read_all(uint32_t descriptor, void *bytes, uint32_t length);

/* Writes all the bytes; answers how many they are, or a refusal. Where a handler has run both go on. */
int32_t write_all(uint32_t descriptor, const void *bytes, uint32_t length);

/* Has handler(signal) called in this process where the signal comes. It runs on the stack of the thread that it comes
   to; when it returns, that thread goes on as it was. Answers the former action, or BAD_ARGUMENT. */
int32_t catch_signal(uint32_t signal, void (*handler)(uint32_t signal));

#endif
