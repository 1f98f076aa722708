/* Lines put together from a format, with numbers in decimal, in hexadecimal and padded, and words: LINES of them, TURNS
   times over. To be measured by bench/run.

   Expect: `formatted`, the number of bytes, and the sum of all of them. */
#include <stdarg.h>

#include "runtime.h"

#ifndef TURNS
#define TURNS 30
#endif

enum { LINES = 500, LENGTH = 80 };

static char *put_number(char *to, uint32_t number, uint32_t base, int width, char filler) {
  char digits[11];
  int count = 0;
  do digits[count++] = "0123456789abcdef"[number % base];
  while (number /= base);
  for (; width > count; width--) *to++ = filler;
  while (count > 0) *to++ = digits[--count];
  return to;
}

/* %u, %x, %s and %c, with a width and a leading zero; the rest is copied. */
static size_t put_line(char *line, const char *format, ...) {
  va_list words;
  va_start(words, format);
  char *to = line;
  for (; *format; format++) {
    if (*format != '%') {
      *to++ = *format;
      continue;
    }
    char filler = *++format == '0' ? '0' : ' ';
    int width = 0;
    while (*format >= '0' && *format <= '9') width = 10 * width + *format++ - '0';
    switch (*format) {
    case 'u': to = put_number(to, va_arg(words, uint32_t), 10, width, filler); break;
    case 'x': to = put_number(to, va_arg(words, uint32_t), 16, width, filler); break;
    case 'c': *to++ = (char)va_arg(words, int); break;
    case 's':
      for (const char *word = va_arg(words, const char *); *word; word++, width--) *to++ = *word;
      for (; width > 0; width--) *to++ = ' ';
      break;
    default: *to++ = *format;
    }
  }
  va_end(words);
  return (size_t)(to - line);
}

int main(void) {
  static const char *const names[] = {"reader", "writer", "a longer name", "x"};
  uint32_t bytes = 0, sum = 0, number = 1;
  char line[LENGTH];
  for (uint32_t turn = 0; turn < TURNS; turn++)
    for (uint32_t i = 0; i < LINES; i++) {
      number = number * 1664525 + 1013904223;
      size_t length = put_line(line, "%4u: %s has %u at 0x%08x, %c%c", i, names[i % 4], number % 100000, number,
                               'a' + (int)(number % 26), '\n');
      bytes += length;
      for (size_t at = 0; at < length; at++) sum += (uint8_t)line[at];
    }
  print("formatted ");
  print_decimal((int32_t)bytes);
  print(" ");
  print_hexadecimal(sum);
  print("\n");
  return 0;
}
