/* A sort: heap sort of COUNT numbers, TURNS times over. To be measured by bench/run.

   Expect: `in order from` the lowest `to` the highest number; 1 where they aren't in order. */
#include "runtime.h"

#ifndef TURNS
#define TURNS 8
#endif

enum { COUNT = 20000 };

static uint32_t numbers[COUNT];

static void sink(uint32_t root, uint32_t length) {
  for (;;) {
    uint32_t child = 2 * root + 1;
    if (child >= length) return;
    if (child + 1 < length && numbers[child] < numbers[child + 1]) child++;
    if (numbers[root] >= numbers[child]) return;
    uint32_t number = numbers[root];
    numbers[root] = numbers[child];
    numbers[child] = number;
    root = child;
  }
}

int main(void) {
  uint32_t number = 1;
  for (uint32_t turn = 0; turn < TURNS; turn++) {
    for (uint32_t i = 0; i < COUNT; i++) numbers[i] = number = number * 1664525 + 1013904223;
    for (uint32_t root = COUNT / 2; root > 0; root--) sink(root - 1, COUNT);
    for (uint32_t length = COUNT; length > 1; length--) {
      uint32_t last = numbers[0];
      numbers[0] = numbers[length - 1];
      numbers[length - 1] = last;
      sink(0, length - 1);
    }
    for (uint32_t i = 1; i < COUNT; i++)
      if (numbers[i - 1] > numbers[i]) return 1;
  }
  print("in order from ");
  print_hexadecimal(numbers[0]);
  print(" to ");
  print_hexadecimal(numbers[COUNT - 1]);
  print("\n");
  return 0;
}
