/* Two threads count the bytes of the input, without a lock: each reads a piece of at most 16 bytes, looks at the counter,
   lets the other one go on, and then adds what it has read to what it saw. What is lost hangs on the quantum and on the pieces in
   which the input comes: typed by hand, from a pipe or from a file it is another race. A replay of its log is always the
   same one.

   Expect, with an input of 1,000 bytes from one file and the usual quantum: a total that is at most 1000, and
   `process 1 status 0`. */
#include "runtime.h"

enum { PIECE = 16 };

static volatile uint32_t counter ON_A_PAGE;
static volatile uint32_t pieces[2] ON_A_PAGE;

static void count(uintptr_t number) {
  char piece[PIECE];
  for (;;) {
    int32_t length = dos_read(INPUT, piece, sizeof piece);
    if (length <= 0) return;
    uint32_t seen = counter;
    dos_yield();
    counter = seen + (uint32_t)length;
    pieces[number]++;
  }
}

int main(void) {
  if (!run_threads(2, count)) return 1;
  print_line("%d bytes counted, in %d and %d pieces\n", (int)counter, (int)pieces[0], (int)pieces[1]);
  return 0;
}
