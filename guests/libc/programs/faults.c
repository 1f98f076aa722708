/* Faults that are told where they happen. The word that main is told says which one; with any other
   there is none.

     overflow      a thread calls itself without end: below its stack nothing is mapped
   and, of a program that was built with GUARD=1:
     after-free    a load of what was freed
     overrun       a store right behind a block
     slack         a store behind a block of 5 bytes, in the same word: free finds it
     twice         a second free of one block

   Expect: `before` and `process 1 status 139`; with no fault also `after`, and status 0. What comes
   behind `before` in the same line isn't printed, since only whole lines are written by then. */
#include <pthread.h>
#include <stdio.h>
#include <stdlib.h>
#include <string.h>

static volatile int depth, deepest = 1 << 30;

static int call_again(volatile char *above) {
  volatile char bytes[512];
  bytes[0] = (char)(above[0] + depth++);
  return depth == deepest ? 0 : call_again(bytes) + bytes[0];
}

static void *overflow(void *argument) {
  char byte = 0;
  (void)argument;
  return (void *)(size_t)call_again(&byte);
}

static void use(const char *fault) {
  /* The compiler is kept from looking where these point. */
  volatile char *volatile block = malloc(5), *volatile page = malloc(4096);
  pthread_t thread;
  if (strcmp(fault, "overflow") == 0 && pthread_create(&thread, NULL, overflow, NULL) == 0)
    pthread_join(thread, NULL);
  if (strcmp(fault, "overrun") == 0) page[4096] = 1;
  if (strcmp(fault, "slack") == 0) block[5] = 1;
  page[4095] = block[4] = 1;
  free((void *)page);
  free((void *)block);
  if (strcmp(fault, "after-free") == 0) depth = block[0];
  if (strcmp(fault, "twice") == 0) free((void *)block);
}

/* A heap under a guard is a heap still. */
static int sum_of_blocks(void) {
  unsigned char *blocks[100];
  int sum = 0;
  for (int i = 0; i < 100; i++) {
    blocks[i] = calloc(1, (size_t)i + 1);
    blocks[i] = realloc(blocks[i], 2 * (size_t)i + 1);
    blocks[i][2 * i] = (unsigned char)i;
  }
  for (int i = 0; i < 100; i++) {
    sum += blocks[i][2 * i] + (i > 0 ? blocks[i][0] : 0);
    free(blocks[i]);
  }
  return sum;
}

int main(int count, char **words) {
  printf("before\nin the same line");
  use(count > 1 ? words[1] : "none");
  printf(" after %d\n", sum_of_blocks());
  return 0;
}
