/* Multiplies two matrices of 64 by 64 words; each of four threads makes 16 rows of the product. A row has 256 bytes, so
   16 rows that follow each other are exactly one page, and the product begins on a page: each thread owns the page that
   it writes, the two factors are only read and so shared, and nearly all the work is done in the parallel phase.
   Compiled with -DMIXED each thread makes every fourth row. Then all four write to one page, and most of the work moves
   into the serial phase: the same product after the same number of rounds, but longer to wait for.

   Expect: sum 520224768, last 168672
   and `process 1 status 0`, `rounds 518 done`. */
#include "runtime.h"

enum { SIZE = 64, WORKERS = 4, ROWS = SIZE / WORKERS };

static uint32_t left[SIZE][SIZE] ON_A_PAGE;
static uint32_t right[SIZE][SIZE] ON_A_PAGE;
static uint32_t product[SIZE][SIZE] ON_A_PAGE;

/* The row that the worker makes as its turn-th, both counted from 0. */
static uint32_t row_of(uint32_t worker, uint32_t turn) {
#ifdef MIXED
  return turn * WORKERS + worker;
#else
  return worker * ROWS + turn;
#endif
}

static void fill(void) {
  for (uint32_t i = 0; i < SIZE; i++)
    for (uint32_t j = 0; j < SIZE; j++) {
      left[i][j] = i + j;
      right[i][j] = i ^ j;
    }
}

static void multiply(uintptr_t worker) {
  for (uint32_t turn = 0; turn < ROWS; turn++) {
    uint32_t i = row_of(worker, turn);
    for (uint32_t j = 0; j < SIZE; j++) {
      uint32_t sum = 0;
      for (uint32_t k = 0; k < SIZE; k++) sum += left[i][k] * right[k][j];
      product[i][j] = sum;
    }
  }
}

int main(void) {
  fill();
  if (!run_threads(WORKERS, multiply)) return 1;

  uint32_t sum = 0;
  for (uint32_t i = 0; i < SIZE; i++)
    for (uint32_t j = 0; j < SIZE; j++) sum += product[i][j];
  print("sum ");
  print_decimal((int32_t)sum);
  print(", last ");
  print_decimal((int32_t)product[SIZE - 1][SIZE - 1]);
  print("\n");
  return 0;
}
