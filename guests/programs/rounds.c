/* Works through six stretches of about 1000 instructions, and prints after each the round in which it ended. With the
   default quantum of 1000 a stretch takes one round and a little of the next; with --quantum 100 it takes about twelve,
   and with --quantum 10000 all six fit into one.

   Expect: six lines, `stretch 1 ended in round 2` and so on with the rounds 3, 4, 5, 6 and 8; the rounds 11, 23, 35,
   48, 60 and 72 with --quantum 100, and six times 1 with 10000;
   and `process 1 status 0`. */
#include "runtime.h"

/* Runs about `instructions` instructions: two a turn. */
static void work(uint32_t instructions) {
  for (uint32_t i = instructions / 2; i > 0; i--) __asm__ volatile("");
}

int main(void) {
  for (int32_t i = 1; i <= 6; i++) {
    work(1000);
    int32_t round = dos_round();
    print("stretch ");
    print_decimal(i);
    print(" ended in round ");
    print_decimal(round);
    print("\n");
  }
  return 0;
}
