/* Code on pages far apart: sixteen functions, each on a page of its own, called in turn. To be measured by bench/run.

   Expect: `went far` and a number that any other machine gives too. */
#include "runtime.h"

#ifndef TURNS
#define TURNS 400000
#endif

#define FAR(name, step)                                                                        \
  static __attribute__((noinline, aligned(4096))) uint32_t name(uint32_t number) {             \
    return (number ^ number >> 7) * 5 + step;                                                  \
  }
FAR(f0, 1) FAR(f1, 3) FAR(f2, 5) FAR(f3, 7) FAR(f4, 11) FAR(f5, 13) FAR(f6, 17) FAR(f7, 19)
FAR(f8, 23) FAR(f9, 29) FAR(f10, 31) FAR(f11, 37) FAR(f12, 41) FAR(f13, 43) FAR(f14, 47) FAR(f15, 53)

int main(void) {
  uint32_t number = 1;
  for (uint32_t i = 0; i < TURNS; i++) {
    number = f3(f2(f1(f0(number))));
    number = f7(f6(f5(f4(number))));
    number = f11(f10(f9(f8(number))));
    number = f15(f14(f13(f12(number))));
  }
  print("went far ");
  print_hexadecimal(number);
  print("\n");
  return 0;
}
