/* Copies its input to its output, piece by piece as the input comes: what is typed is printed at once.

   Expect, with an input of `one` and `two` on two lines: the same two lines, and `process 1 status 0`. */
#include "runtime.h"

int main(void) {
  static char piece[PAGE_SIZE];
  for (;;) {
    int32_t count = dos_read(INPUT, piece, sizeof piece);
    if (count < 0) return 1;
    if (count == 0) return 0;
    if (write_all(OUTPUT, piece, (uint32_t)count) != count) return 2;
  }
}
