/* A buffer of eight places between two threads that fill it and two that empty it. Who finds it full or empty sleeps on
   a condition, so nobody spins. Each maker puts in the numbers 1 to COUNT.

   Expect: 1000 numbers taken, sum 250500
   and `process 1 status 0`, with each quantum. */
#include "runtime.h"

enum { PLACES = 8, MAKERS = 2, TAKERS = 2 };

#ifndef COUNT
#define COUNT 500
#endif

static struct {
  struct mutex mutex;
  struct condition has_room, has_number;
  uint32_t numbers[PLACES], first, held;
  uint32_t taken, sum;
} buffer ON_A_PAGE;

static void put(uint32_t number) {
  mutex_lock(&buffer.mutex);
  while (buffer.held == PLACES) condition_wait(&buffer.has_room, &buffer.mutex);
  buffer.numbers[(buffer.first + buffer.held) % PLACES] = number;
  buffer.held++;
  condition_signal(&buffer.has_number);
  mutex_unlock(&buffer.mutex);
}

static uint32_t take(void) {
  mutex_lock(&buffer.mutex);
  while (buffer.held == 0) condition_wait(&buffer.has_number, &buffer.mutex);
  uint32_t number = buffer.numbers[buffer.first];
  buffer.first = (buffer.first + 1) % PLACES;
  buffer.held--;
  condition_signal(&buffer.has_room);
  mutex_unlock(&buffer.mutex);
  return number;
}

/* The first threads make, the others take; each taker takes its share. */
static void work(uintptr_t number) {
  if (number < MAKERS) {
    for (uint32_t i = 1; i <= COUNT; i++) put(i);
    return;
  }
  uint32_t sum = 0;
  for (uint32_t i = 0; i < COUNT * MAKERS / TAKERS; i++) sum += take();
  atomic_add(&buffer.taken, COUNT * MAKERS / TAKERS);
  atomic_add(&buffer.sum, sum);
}

int main(void) {
  if (!run_threads(MAKERS + TAKERS, work)) return 1;
  print_line("%d numbers taken, sum %d\n", (int)buffer.taken, (int)buffer.sum);
  return 0;
}
