/* Sorts COUNT numbers of a fixed sequence by heap sort and looks whether they came out in order.

   Expect: 1000 numbers in order, from 0x002f1bd8 to 0xfff07d09
   and `process 1 status 0`; 1 where they aren't in order. */
#include "runtime.h"

#ifndef COUNT
#define COUNT 1000
#endif

static uint32_t numbers[COUNT];

static void exchange(uint32_t i, uint32_t j) {
  uint32_t number = numbers[i];
  numbers[i] = numbers[j];
  numbers[j] = number;
}

/* Lets the number at `root` sink until no child of its is greater, in the heap of the first `length` numbers. */
static void sink(uint32_t root, uint32_t length) {
  for (;;) {
    uint32_t child = 2 * root + 1;
    if (child >= length) return;
    if (child + 1 < length && numbers[child] < numbers[child + 1]) child++;
    if (numbers[root] >= numbers[child]) return;
    exchange(root, child);
    root = child;
  }
}

static void sort(void) {
  for (uint32_t root = COUNT / 2; root > 0; root--) sink(root - 1, COUNT);
  for (uint32_t length = COUNT; length > 1; length--) {
    exchange(0, length - 1);
    sink(0, length - 1);
  }
}

static bool is_in_order(void) {
  for (uint32_t i = 1; i < COUNT; i++)
    if (numbers[i - 1] > numbers[i]) return false;
  return true;
}

int main(void) {
  uint32_t number = 1;
  for (uint32_t i = 0; i < COUNT; i++) numbers[i] = number = number * 1664525 + 1013904223;
  sort();
  if (!is_in_order()) return 1;
  print_decimal(COUNT);
  print(" numbers in order, from ");
  print_hexadecimal(numbers[0]);
  print(" to ");
  print_hexadecimal(numbers[COUNT - 1]);
  print("\n");
  return 0;
}
