/* Calls: Fibonacci numbers by their recursion, TURNS times over. To be measured by bench/run.

   Expect: `called` and a number that any other machine gives too. */
#include "runtime.h"

#ifndef TURNS
#define TURNS 50
#endif

static uint32_t fibonacci(uint32_t n) {
  return n < 2 ? n : fibonacci(n - 1) + fibonacci(n - 2);
}

int main(void) {
  uint32_t sum = 0;
  for (uint32_t i = 0; i < TURNS; i++) sum = sum * 3 + fibonacci(24 - (i & 1));
  print("called ");
  print_hexadecimal(sum);
  print("\n");
  return 0;
}
