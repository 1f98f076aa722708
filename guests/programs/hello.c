/* Prints one line: who it is, and the round in which it asks. All of it fits into one quantum of 1000, so one round is
   run.

   Expect: Hello from process 1, thread 1, round 1
   and `process 1 status 0`, `rounds 1 done`. Given twice, as in `./dos run --log my.log hello.elf hello.elf`, two processes run, and
   the second says process 2, thread 2. */
#include "runtime.h"

int main(void) {
  print("Hello from process ");
  print_decimal(dos_get_pid());
  print(", thread ");
  print_decimal(dos_get_tid());
  print(", round ");
  print_decimal(dos_round());
  print("\n");
  return 0;
}
