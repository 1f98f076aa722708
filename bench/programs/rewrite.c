/* Code that changes itself: a loop of WORDS additions of a constant to a0, in which each turn writes another constant
   into one of them, in a page that may be written and run. To be measured by bench/run.

   Expect: `rewritten`, the sum that all turns come to. */
#include "runtime.h"

#ifndef TURNS
#define TURNS 200000
#endif

enum { WORDS = 62, JALR_RA = 0x00008067 };

/* addi a0, a0, constant */
static uint32_t addition(uint32_t constant) { return constant << 20 | 10u << 15 | 10u << 7 | 0x13; }

/* The linker gives this section a page of its own, with all rights. */
__attribute__((section(".rewritten,\"awx\",@nobits#"), aligned(PAGE_SIZE))) static volatile uint32_t code[PAGE_SIZE / 4];

int main(void) {
  for (uint32_t at = 0; at < WORDS; at++) code[at] = addition(1);
  code[WORDS] = JALR_RA;
  uint32_t sum = 0;
  for (uint32_t turn = 0; turn < TURNS; turn++) {
    code[turn % WORDS] = addition(turn % 100);
    __asm__ volatile("fence.i" ::: "memory");
    sum = ((uint32_t(*)(uint32_t))(uintptr_t)code)(sum);
  }
  print("rewritten ");
  print_hexadecimal(sum);
  print("\n");
  return 0;
}
