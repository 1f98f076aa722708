/* Reads lines of the form `A op B`, two whole numbers with one of + - * / between them, and prints what each comes to,
   at once; `?` for a line that is of another form, or divides by 0. Numbers are of 32 bits and wrap.

   Expect, with the lines `12 + 30`, `7 * -6`, `9 / 0` and `seven`: 42, -42, ? and ?, and `process 1 status 0`. */
#include "runtime.h"

enum { LONGEST = 128 };

/* The input that has been read and not used. */
static char held[LONGEST];
static uint32_t held_count;

/* Reads the next line, without its line feed; a longer one is cut. False where there is none. */
static bool read_line(char line[LONGEST + 1]) {
  for (;;) {
    for (uint32_t i = 0; i < held_count; i++) {
      if (held[i] != '\n') continue;
      memcpy(line, held, i);
      line[i] = '\0';
      held_count -= i + 1;
      memmove(held, held + i + 1, held_count);
      return true;
    }
    int32_t count = held_count < LONGEST ? dos_read(INPUT, held + held_count, LONGEST - held_count) : 0;
    if (count > 0) {
      held_count += (uint32_t)count;
      continue;
    }
    if (held_count == 0) return false;
    memcpy(line, held, held_count);
    line[held_count] = '\0';
    held_count = 0;
    return true;
  }
}

static const char *skip_blanks(const char *text) {
  while (*text == ' ') text++;
  return text;
}

/* Reads a number and answers what stands behind it, or NULL where none stands there. */
static const char *read_number(const char *text, uint32_t *number) {
  bool is_negative = *text == '-';
  if (is_negative) text++;
  if (*text < '0' || *text > '9') return NULL;
  for (*number = 0; *text >= '0' && *text <= '9'; text++) *number = 10 * *number + (uint32_t)(*text - '0');
  if (is_negative) *number = 0 - *number;
  return skip_blanks(text);
}

static bool calculate(const char *line, uint32_t *result) {
  uint32_t left, right;
  const char *operation = read_number(skip_blanks(line), &left);
  if (operation == NULL || *operation == '\0') return false;
  const char *end = read_number(skip_blanks(operation + 1), &right);
  if (end == NULL || *end != '\0') return false;
  switch (*operation) {
    case '+': *result = left + right; return true;
    case '-': *result = left - right; return true;
    case '*': *result = left * right; return true;
    case '/':
      if (right == 0) return false;
      *result = right == 0xFFFFFFFFu ? 0 - left : (uint32_t)((int32_t)left / (int32_t)right);
      return true;
    default: return false;
  }
}

int main(void) {
  char line[LONGEST + 1];
  while (read_line(line)) {
    uint32_t result;
    if (calculate(line, &result)) {
      print_line("%d\n", (int)(int32_t)result);
    } else {
      print("?\n");
    }
  }
  return 0;
}
