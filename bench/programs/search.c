/* A string search: how often a word stands in a text, letter by letter, TURNS times over. To be measured by bench/run.

   Expect: `found` and a number that any other machine gives too. */
#include "runtime.h"

#ifndef TURNS
#define TURNS 120
#endif

enum { LENGTH = 50000 };

static char text[LENGTH + 1];

static uint32_t count(const char *in, const char *word) {
  uint32_t found = 0;
  for (; *in; in++) {
    uint32_t i = 0;
    while (word[i] && in[i] == word[i]) i++;
    found += !word[i];
  }
  return found;
}

int main(void) {
  static const char *words[4] = {"ab", "abca", "cc", "bacab"};
  uint32_t number = 1, found = 0;
  for (uint32_t i = 0; i < LENGTH; i++) {
    number = number * 1664525 + 1013904223;
    text[i] = (char)('a' + (number >> 24) % 3);
  }
  for (uint32_t turn = 0; turn < TURNS; turn++) found += count(text, words[turn & 3]);
  print("found ");
  print_decimal((int32_t)found);
  print("\n");
  return 0;
}
