/* A quick sort of COUNT records that asks a function it is given which of two comes first, TURNS times over. To be
   measured by bench/run.

   Expect: `in order from` the first key `to` the last; 1 where they aren't in order. */
#include "runtime.h"

#ifndef TURNS
#define TURNS 8
#endif

enum { COUNT = 10000 };

struct record {
  uint32_t key, number;
};

typedef int (*comparison)(const void *, const void *);

static struct record records[COUNT];

static int by_key(const void *left, const void *right) {
  const struct record *a = left, *b = right;
  return a->key < b->key ? -1 : a->key > b->key;
}

static void swap(uint8_t *left, uint8_t *right, size_t size) {
  for (size_t i = 0; i < size; i += 4) {
    uint32_t word = *(uint32_t *)(left + i);
    *(uint32_t *)(left + i) = *(uint32_t *)(right + i);
    *(uint32_t *)(right + i) = word;
  }
}

/* As qsort of the C standard, for items of whole words. */
static void sort(uint8_t *items, size_t count, size_t size, comparison compare) {
  while (count > 1) {
    size_t low = 0, high = count - 1, middle = count / 2;
    swap(items, items + middle * size, size);
    for (size_t i = 1; i < count; i++)
      if (compare(items + i * size, items) < 0) swap(items + i * size, items + ++low * size, size);
    swap(items, items + low * size, size);
    if (low < high - low) {
      sort(items, low, size, compare);
      items += (low + 1) * size;
      count = high - low;
    } else {
      sort(items + (low + 1) * size, high - low, size, compare);
      count = low;
    }
  }
}

int main(void) {
  uint32_t number = 1;
  for (uint32_t turn = 0; turn < TURNS; turn++) {
    for (uint32_t i = 0; i < COUNT; i++) records[i] = (struct record){number = number * 1664525 + 1013904223, i};
    sort((uint8_t *)records, COUNT, sizeof *records, by_key);
    for (uint32_t i = 1; i < COUNT; i++)
      if (records[i - 1].key > records[i].key) return 1;
  }
  print("in order from ");
  print_hexadecimal(records[0].key);
  print(" to ");
  print_hexadecimal(records[COUNT - 1].key);
  print("\n");
  return 0;
}
