/* Four threads add the numbers from 1 to 4000 to one total, a thousand numbers each, by atomic adds. An amoadd.w is one
   instruction, so nothing is lost, whatever the quantum is. It makes the page of the total its thread's own.

   Expect: total 8002000
   and `process 1 status 0`. */
#include "runtime.h"

enum { WORKERS = 4, NUMBERS = 1000 };

static volatile uint32_t total ON_A_PAGE;

static void add(uintptr_t worker) {
  uint32_t first = worker * NUMBERS + 1;
  for (uint32_t i = first; i < first + NUMBERS; i++) atomic_add(&total, i);
}

int main(void) {
  if (!run_threads(WORKERS, add)) return 1;
  print("total ");
  print_decimal((int32_t)total);
  print("\n");
  return 0;
}
