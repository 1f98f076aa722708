/* A table of words by FNV-1a's hash, with linear probing: each of WORDS words of some letters is counted, TURNS times
   over. To be measured by bench/run.

   Expect: `counted`, how often in all, `in`, how many different words. */
#include "runtime.h"

#ifndef TURNS
#define TURNS 10
#endif

enum { WORDS = 4000, PLACES = 8192, LETTERS = 12 };

struct place {
  char word[LETTERS];
  uint32_t count;
};

static struct place places[PLACES];

static bool same(const char *left, const char *right) {
  while (*left && *left == *right) left++, right++;
  return *left == *right;
}

static void copy(char *to, const char *from) {
  while ((*to++ = *from++)) {}
}

static uint32_t hash_of(const char *word) {
  uint32_t hash = 2166136261u;
  for (; *word; word++) hash = (hash ^ (uint8_t)*word) * 16777619u;
  return hash;
}

static struct place *place_of(const char *word) {
  uint32_t at = hash_of(word) % PLACES;
  while (places[at].word[0] && !same(places[at].word, word)) at = (at + 1) % PLACES;
  return &places[at];
}

/* A word for this number, with letters that come often and letters that don't. */
static void spell(char *word, uint32_t number) {
  uint32_t length = 3 + number % 7;
  for (uint32_t i = 0; i < length; i++, number /= 5) word[i] = "aeionrstlkm"[(number + i) % 11];
  word[length] = 0;
}

int main(void) {
  uint32_t all = 0, different = 0;
  char word[LETTERS];
  for (uint32_t turn = 0; turn < TURNS; turn++)
    for (uint32_t i = 0; i < WORDS; i++) {
      spell(word, i * 7919);
      struct place *place = place_of(word);
      if (!place->word[0]) copy(place->word, word);
      place->count++;
    }
  for (uint32_t at = 0; at < PLACES; at++) all += places[at].count, different += places[at].count > 0;
  print("counted ");
  print_decimal((int32_t)all);
  print(" in ");
  print_decimal((int32_t)different);
  print("\n");
  return 0;
}
