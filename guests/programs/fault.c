/* A thread stores a word at address 0, where no page is. That is fault 11, and it ends the whole process with status
   128 + 11: the first thread, which only waits, never prints its line.

   Expect: storing at 0x00000000
   and `process 1 status 139`. */
#include "runtime.h"

static void store(uintptr_t address) {
  print("storing at ");
  print_hexadecimal(address);
  print("\n");
  *(volatile uint32_t *)address = 1;
  print("stored\n");
}

int main(void) {
  if (!run_threads(1, store)) return 1;
  print("joined\n");
  return 0;
}
