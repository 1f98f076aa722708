/* A matrix product: two of SIZE by SIZE words, TURNS times over. To be measured by bench/run.

   Expect: `product` and a number that any other machine gives too. */
#include "runtime.h"

#ifndef TURNS
#define TURNS 8
#endif

enum { SIZE = 96 };

static uint32_t left[SIZE][SIZE], right[SIZE][SIZE], product[SIZE][SIZE];

int main(void) {
  for (uint32_t i = 0; i < SIZE; i++)
    for (uint32_t j = 0; j < SIZE; j++) {
      left[i][j] = i + j;
      right[i][j] = i ^ j;
    }
  uint32_t sum = 0;
  for (uint32_t turn = 0; turn < TURNS; turn++) {
    for (uint32_t i = 0; i < SIZE; i++)
      for (uint32_t j = 0; j < SIZE; j++) {
        uint32_t cell = 0;
        for (uint32_t k = 0; k < SIZE; k++) cell += left[i][k] * right[k][j];
        product[i][j] = cell;
      }
    left[turn][turn] = sum += product[turn][2 * turn];
  }
  print("product ");
  print_hexadecimal(sum);
  print("\n");
  return 0;
}
