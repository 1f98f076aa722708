/* What four threads bring on this machine: rounds of PARTS parts that compute for so many MICROSECONDS each, on one
   thread, and on four that draw the parts from a common count: threads that are started and joined in each round, by
   halves, and threads that stay and look for the next round without sleep. Prints both numbers again, and how many times
   as fast four threads are, started and staying, each the median of five pairs.
   usage: plain_threads PARTS MICROSECONDS */
#include <limits.h>
#include <pthread.h>
#include <stdatomic.h>
#include <stdint.h>
#include <stdio.h>
#include <stdlib.h>
#include <time.h>

enum { WORKERS = 4, PAIRS = 5 };

static long parts, turns;
static _Alignas(64) atomic_long next;
static _Alignas(64) atomic_long begun; /* rounds of threads that stay */
static _Alignas(64) atomic_long finished; /* threads that are through with the present one */

static double now(void) {
  struct timespec t;
  clock_gettime(CLOCK_MONOTONIC, &t);
  return t.tv_sec + t.tv_nsec * 1e-9;
}

/* Eight chains that don't wait for one another keep a core's units as busy as an interpreter does: where two of the
   machine's processors share a core, they slow each other down, as they do the program. */
static void compute(void) {
  uint32_t a = 1, b = 2, c = 3, d = 4, e = 5, f = 6, g = 7, h = 8;
  for (long i = 0; i < turns; i++) {
    a += i, b ^= i, c += 5, d ^= 7, e += i, f ^= i, g += 11, h ^= 13;
    __asm__ volatile("" : "+r"(a), "+r"(b), "+r"(c), "+r"(d), "+r"(e), "+r"(f), "+r"(g), "+r"(h));
  }
}

static void draw(void) {
  while (atomic_fetch_add(&next, 1) < parts) compute();
}

static void *work(void *workers) {
  intptr_t count = (intptr_t)workers;
  if (count == 1) {
    draw();
    return NULL;
  }
  pthread_t half;
  if (pthread_create(&half, NULL, work, (void *)(count / 2))) exit(1);
  work((void *)(count - count / 2));
  pthread_join(half, NULL);
  return NULL;
}

static double rounds(long count, intptr_t workers) {
  double begin = now();
  for (long i = 0; i < count; i++) {
    atomic_store(&next, 0);
    work((void *)workers);
  }
  return now() - begin;
}

static void *stay(void *unused) {
  (void)unused;
  for (long round = 1;; round++) {
    long seen;
    while ((seen = atomic_load(&begun)) < round) __builtin_ia32_pause();
    if (seen == LONG_MAX) return NULL;
    draw();
    atomic_fetch_add(&finished, 1);
  }
}

static double staying_rounds(long count) {
  pthread_t others[WORKERS - 1];
  atomic_store(&begun, 0);
  for (int i = 0; i < WORKERS - 1; i++)
    if (pthread_create(&others[i], NULL, stay, NULL)) exit(1);
  double begin = now();
  for (long round = 1; round <= count; round++) {
    atomic_store(&next, 0);
    atomic_store(&finished, 0);
    atomic_store(&begun, round);
    draw();
    while (atomic_load(&finished) < WORKERS - 1) __builtin_ia32_pause();
  }
  double end = now();
  atomic_store(&begun, LONG_MAX);
  for (int i = 0; i < WORKERS - 1; i++) pthread_join(others[i], NULL);
  return end - begin;
}

static int rising(const void *a, const void *b) {
  double x = *(const double *)a, y = *(const double *)b;
  return (x > y) - (x < y);
}

int main(int count, char **words) {
  if (count != 3) return 2;
  parts = atol(words[1]);
  double length = atof(words[2]) * 1e-6;
  turns = 10000000;
  double begin = now();
  compute();
  turns = (long)(turns * length / (now() - begin)) + 1;
  long enough = (long)(0.3 / (length * parts)) + 1;
  double started[PAIRS], stayed[PAIRS];
  for (int i = 0; i < PAIRS; i++) {
    double one = rounds(enough, 1);
    started[i] = one / rounds(enough, WORKERS);
    stayed[i] = one / staying_rounds(enough);
  }
  qsort(started, PAIRS, sizeof *started, rising);
  qsort(stayed, PAIRS, sizeof *stayed, rising);
  printf("%s %s %.2f %.2f\n", words[1], words[2], started[PAIRS / 2], stayed[PAIRS / 2]);
  return 0;
}
