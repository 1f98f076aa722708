/* A bank: four tellers move money between ten accounts, 500 times each. Where nobody locks
   anything, two tellers read the same balance, and the money that one of them writes back is made
   or lost for ever. Elsewhere the sum would be another at each run, and right at most of them. Here
   it is wrong in the same way at each run, on each computer, until the cause is found.

   Expect: without a lock 10 accounts hold 990 of 1000
           with a lock 10 accounts hold 1000 of 1000
   and `process 1 status 0`. With another --quantum, or another compiler, the first sum is another
   one, the same at each run. How much is lost was worked out by another interpreter, which was
   written from the machine's rules alone. */
#include <stdio.h>
#include <stdlib.h>
#include <threads.h>

enum { TELLERS = 4, ACCOUNTS = 10, MOVES = 500, EACH = 100 };

static volatile int balance[ACCOUNTS];
static mtx_t lock;
static int is_locked;

/* A number below `limit` from the teller's own sequence. */
static int draw(unsigned *state, int limit) {
  *state = *state * 1103515245 + 12345;
  return (int)(*state >> 16) % limit;
}

static void move(int from, int to, int amount) {
  if (balance[from] < amount) return;
  balance[from] -= amount;
  balance[to] += amount;
}

static int serve(void *number) {
  unsigned state = (unsigned)(size_t)number;
  for (int i = 0; i < MOVES; i++) {
    int from = draw(&state, ACCOUNTS), to = draw(&state, ACCOUNTS), amount = draw(&state, EACH);
    if (is_locked) mtx_lock(&lock);
    move(from, to, amount);
    if (is_locked) mtx_unlock(&lock);
  }
  return 0;
}

static int open_bank(void) {
  thrd_t tellers[TELLERS];
  for (int i = 0; i < ACCOUNTS; i++) balance[i] = EACH;
  for (int i = 0; i < TELLERS; i++)
    if (thrd_create(&tellers[i], serve, (void *)(size_t)i) != thrd_success) exit(EXIT_FAILURE);
  for (int i = 0; i < TELLERS; i++) thrd_join(tellers[i], NULL);
  int sum = 0;
  for (int i = 0; i < ACCOUNTS; i++) sum += balance[i];
  return sum;
}

int main(void) {
  printf("without a lock %d accounts hold %d of %d\n", ACCOUNTS, open_bank(), ACCOUNTS * EACH);
  mtx_init(&lock, mtx_plain);
  is_locked = 1;
  printf("with a lock %d accounts hold %d of %d\n", ACCOUNTS, open_bank(), ACCOUNTS * EACH);
  return 0;
}
