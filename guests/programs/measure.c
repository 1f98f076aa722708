/* Three loops to be measured, of about 33 million instructions each: one that adds, shifts and compares in registers, one
   that walks through 64 KiB of memory and loads and stores each word, and one that multiplies and divides. -DTURNS=,
   -DPASSES= and -DDIVISIONS= set how often; 0 leaves a loop out. Run it with --quantum 65536 or a higher --rounds:
   100000 rounds of the default quantum are too few for longer ones.

   Expect: computed 0xf99b844d
           walked 0x92721401
           divided 0x00000471
   and `process 1 status 0`; a program in C on another machine gives the same numbers. */
#include "runtime.h"

#ifndef TURNS
#define TURNS 3000000 /* of some 11 instructions */
#endif
#ifndef PASSES
#define PASSES 400 /* of WORDS times 5 instructions */
#endif
#ifndef DIVISIONS
#define DIVISIONS 4000000 /* of some 8 instructions */
#endif

enum { WORDS = 16384 };

static uint32_t words[WORDS] ON_A_PAGE;

/* Marsaglia's xorshift, and how often it comes out below the last one. */
static uint32_t compute(uint32_t turns) {
  uint32_t number = 2463534242, falls = 0;
  for (uint32_t i = 0; i < turns; i++) {
    uint32_t next = number ^ number << 13;
    next ^= next >> 17;
    next ^= next << 5;
    falls += next < number;
    number = next;
  }
  return number + falls;
}

static uint32_t walk(uint32_t passes) {
  uint32_t sum = 1;
  for (uint32_t pass = 0; pass < passes; pass++)
    for (uint32_t i = 0; i < WORDS; i++) words[i] = sum += words[i];
  return sum;
}

static uint32_t divide(uint32_t turns) {
  uint32_t number = 7;
  for (uint32_t i = 1; i <= turns; i++) number = number * 1664525 / i + (number ^ i) % 1013;
  return number;
}

int main(void) {
  print("computed ");
  print_hexadecimal(compute(TURNS));
  print("\nwalked ");
  print_hexadecimal(walk(PASSES));
  print("\ndivided ");
  print_hexadecimal(divide(DIVISIONS));
  print("\n");
  return 0;
}
