/* What the C standard says of the library, tried on the one that programs are linked with here.
   Each line of the table has its source in the standard (ISO/IEC 9899:2011, by clause; annex F for
   IEC 60559 arithmetic), and the values stand there or follow from what stands there. Where one is
   missed, it is printed with what came instead.

   Expect: 101 of 101 hold, 2 are known to differ
           second handler
           first handler
           destructor
   and `process 1 status 0`. */
#include <ctype.h>
#include <errno.h>
#include <float.h>
#include <limits.h>
#include <locale.h>
#include <math.h>
#include <setjmp.h>
#include <signal.h>
#include <stdalign.h>
#include <stdarg.h>
#include <stdatomic.h>
#include <stdbool.h>
#include <stddef.h>
#include <stdint.h>
#include <stdio.h>
#include <stdlib.h>
#include <string.h>
#include <time.h>

static int tried, held, differing;

static void expect(const char *clause, const char *what, bool holds) {
  tried++;
  if (holds)
    held++;
  else
    printf("%s: %s doesn't hold\n", clause, what);
}

/* One line of the table: an expression that the clause makes true. */
#define HOLDS(clause, expression) expect(clause, #expression, expression)

/* What picolibc 1.8 is known to do otherwise than the clause asks or recommends. */
static void differs(const char *clause, const char *what, bool holds) {
  differing++;
  if (holds) printf("%s: %s holds by now\n", clause, what);
}

/* The text that a format gives is the one expected, and the number answered is its length
   (7.21.6.5). */
static void prints(const char *clause, const char *wanted, const char *format, ...) {
  char got[100];
  va_list rest;
  va_start(rest, format);
  int length = vsnprintf(got, sizeof got, format, rest);
  va_end(rest);
  tried++;
  if (strcmp(got, wanted) == 0 && length == (int)strlen(wanted))
    held++;
  else
    printf("%s: %s gives %s (%d), not %s\n", clause, format, got, length, wanted);
}

/* ---- jumps, 7.13 ---- */

static jmp_buf back;

static void jump(int value, int depth) {
  if (depth > 0)
    jump(value, depth - 1);
  else if (value >= 0)
    longjmp(back, value);
}

static void try_jumps(void) {
  volatile int kept = 1;
  volatile int came = setjmp(back);
  if (came == 0) {
    kept = 5;
    jump(7, 3);
  }
  HOLDS("7.13.2.1", came == 7);
  HOLDS("7.13.2.1", kept == 5);
  came = -1;
  switch (setjmp(back)) {
  case 0: jump(0, 0); break;
  case 1: came = 1; break;
  }
  HOLDS("7.13.2.1", came == 1);
}

/* ---- sorting and searching, 7.22.5 ---- */

struct record {
  int key;
  char text[8];
};

static int by_key(const void *left, const void *right) {
  const struct record *a = left, *b = right;
  return (a->key > b->key) - (a->key < b->key);
}

static int by_byte(const void *left, const void *right) {
  return *(const unsigned char *)left - *(const unsigned char *)right;
}

static void try_sorting(void) {
  struct record records[200];
  char bytes[] = "sphinxofblackquartzjudgemyvow";
  bool is_sorted = true, are_whole = true;
  for (int i = 0; i < 200; i++) {
    records[i].key = i * 77 % 200;
    snprintf(records[i].text, sizeof records[i].text, "%d", records[i].key);
  }
  qsort(records, 200, sizeof *records, by_key);
  for (int i = 0; i < 200; i++) {
    if (records[i].key != i) is_sorted = false;
    if (atoi(records[i].text) != i) are_whole = false;
  }
  HOLDS("7.22.5.2", is_sorted && are_whole);
  qsort(bytes, strlen(bytes), 1, by_byte);
  HOLDS("7.22.5.2", strcmp(bytes, "aabcdefghijklmnoopqrstuuvwxyz") == 0);
  qsort(bytes, 0, 1, by_byte);
  struct record wanted = {.key = 123};
  struct record *found = bsearch(&wanted, records, 200, sizeof *records, by_key);
  HOLDS("7.22.5.1", found == &records[123]);
  wanted.key = 200;
  HOLDS("7.22.5.1", bsearch(&wanted, records, 200, sizeof *records, by_key) == NULL);
}

/* ---- numbers from text, 7.22.1 ---- */

static void try_reading(void) {
  char *end;
  HOLDS("7.22.1.3", strtod("  +12.5abc", &end) == 12.5 && strcmp(end, "abc") == 0);
  HOLDS("7.22.1.3", strtod("0x1.8p1", NULL) == 3.0);
  HOLDS("7.22.1.3", strtod("-.5e-1", NULL) == -0.05);
  HOLDS("7.22.1.3", isinf(strtod("-INFINITY", NULL)) && strtod("-inf", NULL) < 0);
  HOLDS("7.22.1.3", isnan(strtod("nan", NULL)));
  HOLDS("7.22.1.3", strtod("e5", &end) == 0 && strcmp(end, "e5") == 0);
  HOLDS("7.22.1.3", strtod("1e", &end) == 1 && strcmp(end, "e") == 0);
  errno = 0;
  HOLDS("7.22.1.3", strtod("1e400", NULL) == HUGE_VAL && errno == ERANGE);
  errno = 0;
  HOLDS("7.22.1.3", strtod("-1e400", NULL) == -HUGE_VAL && errno == ERANGE);
  HOLDS("F.5", strtod("0.1", NULL) == 0x1.999999999999ap-4);
  HOLDS("F.5", strtod("9007199254740993", NULL) == 9007199254740992.0);
  HOLDS("F.5", strtod("1.7976931348623157e308", NULL) == DBL_MAX);
  HOLDS("7.22.1.4", strtol("-0x7f", NULL, 0) == -127);
  HOLDS("7.22.1.4", strtol("0777", NULL, 0) == 511);
  HOLDS("7.22.1.4", strtol("zz", NULL, 36) == 1295);
  HOLDS("7.22.1.4", strtol("12x", &end, 10) == 12 && *end == 'x');
  errno = 0;
  HOLDS("7.22.1.4", strtol("2147483648", NULL, 10) == LONG_MAX && errno == ERANGE);
  errno = 0;
  HOLDS("7.22.1.4", strtol("-2147483649", NULL, 10) == LONG_MIN && errno == ERANGE);
  HOLDS("7.22.1.4", strtoll("-9223372036854775808", NULL, 10) == LLONG_MIN);
  HOLDS("7.22.1.4", strtoull("18446744073709551615", NULL, 10) == ULLONG_MAX);
  int first = 0, count = 0;
  char word[8] = "";
  double number = 0;
  HOLDS("7.21.6.7", sscanf("42 seven 1.5e2", "%d %7s %lf%n", &first, word, &number, &count) == 3);
  HOLDS("7.21.6.7", first == 42 && strcmp(word, "seven") == 0 && number == 150 && count == 14);
}

/* ---- text from numbers, 7.21.6.1 ---- */

static void try_printing(void) {
  prints("7.21.6.1", "1.000000", "%f", 1.0);
  prints("7.21.6.1", "1.234568e+04", "%e", 12345.678);
  prints("7.21.6.1", "1e-05 0.0001 100000 1e+06", "%g %g %g %g", 1e-5, 1e-4, 1e5, 1e6);
  prints("7.21.6.1", "1.50000", "%#g", 1.5);
  prints("7.21.6.1", "0x1p+0 -0x1p-1", "%a %a", 1.0, -0.5);
  prints("7.21.6.1", "inf -INF nan", "%f %F %f", INFINITY, -INFINITY, fabs(NAN));
  prints("7.21.6.1", "-0.0", "%.1f", -0.0);
  prints("7.21.6.1", "  3.14|3.14  |+3.14|0003.1", "%6.2f|%-6.2f|%+.2f|%06.1f", 3.14159, 3.14159,
         3.14159, 3.14159);
  prints("7.21.6.1", "3 -4 2", "%.0f %.0f %.0f", 2.6, -3.7, 1.5);
  prints("F.5", "1.7976931348623157e+308", "%.17g", DBL_MAX);
  prints("F.5", "123456789012345680", "%.0f", 123456789012345680.0);
  prints("7.21.6.1", "9223372036854775807 -9223372036854775808", "%lld %lld", LLONG_MAX, LLONG_MIN);
  prints("7.21.6.1", "18446744073709551615 ffffffffffffffff", "%llu %llx", ULLONG_MAX, ULLONG_MAX);
  prints("7.21.6.1", "-128 255 -1", "%hhd %hhu %hd", 128, 255, 65535);
  prints("7.21.6.1", "0x2a 052 2A", "%#x %#o %X", 42u, 42u, 42u);
  prints("7.21.6.1", "   42|42   |00042|+42| 42", "%5d|%-5d|%05d|%+d|% d", 42, 42, 42, 42, 42);
  prints("7.21.6.1", "007|", "%.3d|%.0d", 7, 0);
  prints("7.21.6.1", "ab|  abc|abc  |%|x", "%.2s|%*s|%-5s|%%|%c", "abc", 5, "abc", "abc", 'x');
  prints("7.21.6.1", "4294967295 -1 7", "%zu %td %jd", (size_t)-1, (ptrdiff_t)-1, (intmax_t)7);
  char text[40];
  snprintf(text, sizeof text, "%.0f %.0f", 0.5, 2.5);
  differs("F.5", "a tie is rounded to even", strcmp(text, "0 2") == 0);
  snprintf(text, sizeof text, "%.17g", 0.1);
  differs("7.21.6.1", "17 digits are those of the value", strcmp(text, "0.10000000000000001") == 0);
  char small[4];
  volatile int five_digits = 12345;
  HOLDS("7.21.6.5",
        snprintf(small, sizeof small, "%d", five_digits) == 5 && strcmp(small, "123") == 0);
  HOLDS("7.21.6.5", snprintf(NULL, 0, "%s", "seven") == 5);
}

/* ---- arithmetic, 6.5 and 7.22.6 ---- */

static void try_arithmetic(void) {
  volatile long long seven = 7, two = 2, least = LLONG_MIN, most = LLONG_MAX;
  volatile unsigned long long all = ULLONG_MAX, third = 3;
  volatile double tenth = 0.1, fifth = 0.2;
  HOLDS("6.5.5", -seven / two == -3 && -seven % two == -1);
  HOLDS("6.5.5", seven / -two == -3 && seven % -two == 1);
  HOLDS("6.5.5", all / third == 6148914691236517205ULL && all % third == 0);
  HOLDS("6.5.5", least / two == -4611686018427387904LL && least % 10 == -8);
  HOLDS("6.5.5", most / 1000000007 == 9223371972LL && most % 1000000007 == 291172003LL);
  HOLDS("6.5.5", all / 4294967296ULL == 4294967295ULL && all % 4294967297ULL == 0);
  HOLDS("6.5.5", (unsigned long long)seven * 1317624576693539401ULL == 9223372036854775807ULL);
  HOLDS("6.5.7", 1ULL << (seven * 9) == 9223372036854775808ULL && all >> 63 == 1);
  HOLDS("7.22.6.2", lldiv(-7, 2).quot == -3 && lldiv(-7, 2).rem == -1);
  HOLDS("7.22.6.1", llabs(-9007199254740993LL) == 9007199254740993LL);
  HOLDS("F.3", tenth + fifth == 0x1.3333333333334p-2 && tenth + fifth != 0.3);
  HOLDS("6.3.1.4", (long long)-2.9 == -2 && (double)9007199254740993LL == 9007199254740992.0);
  HOLDS("F.10.4.5", sqrt(2) == 0x1.6a09e667f3bcdp+0);
  HOLDS("F.10.6", floor(-0.5) == -1 && ceil(-0.5) == 0 && signbit(ceil(-0.5)) &&
                      trunc(-2.7) == -2 && round(-2.5) == -3);
  HOLDS("7.12.10.1", fmod(-7.5, 2) == -1.5 && remainder(7.5, 2) == -0.5);
  HOLDS("7.12.6", ldexp(0.75, 4) == 12 && frexp(12, &(int){0}) == 0.75 && ilogb(1024) == 10);
  HOLDS("F.10.4.4", pow(2, 10) == 1024 && pow(-2, 3) == -8 && pow(5, 0) == 1 && isinf(pow(0, -1)));
  HOLDS("F.10.3", exp(0) == 1 && log(1) == 0 && isinf(log(0)) && isnan(log(-1)));
  HOLDS("F.10.1", atan2(0.0, -1.0) == M_PI && sin(0) == 0 && cos(0) == 1);
  HOLDS("7.12.13.1", fma(0x1p-1 + 0x1p-52, 2, -1) == 0x1p-51);
}

/* ---- memory, 7.22.3 and 7.24 ---- */

static void try_memory(void) {
  unsigned char *zeros = calloc(10, 3), any = 0;
  for (int i = 0; i < 30; i++) any |= zeros[i];
  HOLDS("7.22.3.2", any == 0);
  strcpy((char *)zeros, "kept");
  char *grown = realloc(zeros, 5000);
  HOLDS("7.22.3.5", grown != NULL && strcmp(grown, "kept") == 0);
  free(grown);
  bool is_aligned = true;
  for (size_t size = 1; size < 40; size++)
    is_aligned &= (uintptr_t)malloc(size) % alignof(max_align_t) == 0;
  HOLDS("7.22.3", is_aligned);
  HOLDS("7.22.3.1", (uintptr_t)aligned_alloc(256, 512) % 256 == 0);
  volatile size_t most = SIZE_MAX;
  HOLDS("7.22.3.4", malloc(most - 100) == NULL);
  HOLDS("7.22.3.2", calloc(most / 2, 3) == NULL);
  free(NULL);

  char overlapping[] = "abcdef";
  memmove(overlapping + 2, overlapping, 4);
  HOLDS("7.24.2.2", strcmp(overlapping, "ababcd") == 0);
  HOLDS("7.24.4",
        memcmp("\x80", "\x7f", 1) > 0 && strcmp("a", "b") < 0 && strncmp("abx", "aby", 2) == 0);
  HOLDS("7.24.5", strstr("a needle", "need") != NULL && strrchr("a/b/c", '/')[1] == 'c' &&
                      strcspn("key=1", "=") == 3);
  char list[] = "one,,two";
  HOLDS("7.24.5.8", strcmp(strtok(list, ","), "one") == 0);
  HOLDS("7.24.5.8", strcmp(strtok(NULL, ","), "two") == 0 && strtok(NULL, ",") == NULL);
}

/* Takes blocks until there are no more, gives them back and takes as many again: to say no is all
   that malloc may do. */
static void try_exhaustion(void) {
  enum { BLOCK = 8192, MOST = 100000 };
  int counts[2] = {0, 0};
  bool are_whole = true;
  for (int turn = 0; turn < 2; turn++) {
    char **last = NULL, **block;
    while (counts[turn] < MOST && (block = malloc(BLOCK)) != NULL) {
      *block = (char *)last;
      block[BLOCK / sizeof *block - 1] = (char *)block;
      last = block;
      counts[turn]++;
    }
    while (last != NULL) {
      char **next = (char **)*last;
      are_whole &= last[BLOCK / sizeof *last - 1] == (char *)last;
      free(last);
      last = next;
    }
  }
  HOLDS("7.22.3.4", counts[0] > 0 && counts[0] < MOST);
  HOLDS("7.22.3.3", counts[1] == counts[0]);
  HOLDS("7.22.3", are_whole);
}

/* ---- signals, time, environment, input ---- */

static volatile sig_atomic_t seen;

static void see(int signal) {
  seen = signal;
}

static void try_surroundings(void) {
  HOLDS("7.14.1.1", signal(SIGINT, see) == SIG_DFL);
  HOLDS("7.14.2.1", raise(SIGINT) == 0 && seen == SIGINT);
  signal(SIGTERM, SIG_IGN);
  HOLDS("7.14.1.1", raise(SIGTERM) == 0);
  struct tm day = {.tm_year = 124, .tm_mon = 1, .tm_mday = 30};
  mktime(&day);
  HOLDS("7.27.2.3", day.tm_mon == 2 && day.tm_mday == 1 && day.tm_wday == 5 && day.tm_yday == 60);
  char date[20];
  HOLDS("7.27.3.5", strftime(date, sizeof date, "%Y-%m-%d %H:%M", &day) == 16 &&
                        strcmp(date, "2024-03-01 00:00") == 0);
  HOLDS("7.22.4.6", getenv("HOME") == NULL);
  HOLDS("7.22.4.8", system(NULL) == 0);
  HOLDS("7.11.1.1",
        strcmp(setlocale(LC_ALL, NULL), "C") == 0 && setlocale(LC_ALL, "no such") == NULL);
  HOLDS("7.11.2.1", strcmp(localeconv()->decimal_point, ".") == 0);
  HOLDS("7.4",
        isalpha('a') && !isalpha('1') && toupper('z') == 'Z' && isspace('\v') && ispunct('!'));
  HOLDS("7.21.5.3", fopen("file", "r") == NULL);
  HOLDS("7.21.10.3", ferror(stdout) == 0);
  static _Thread_local int local = 17;
  HOLDS("6.2.4", local++ == 17 && local == 18);
  HOLDS("7.17.7.5", atomic_fetch_add(&(atomic_int){41}, 1) == 41);
}

/* ---- start and end ---- */

static int constructed;

__attribute__((constructor)) static void construct(void) {
  constructed = 1;
}

__attribute__((destructor)) static void destruct(void) {
  puts("destructor");
}

static void first_handler(void) {
  puts("first handler");
}

static void second_handler(void) {
  puts("second handler");
}

int main(int count, char **arguments) {
  HOLDS("5.1.2.2.1", count >= 1 && arguments[count] == NULL);
  HOLDS("GNU", constructed == 1);
  try_jumps();
  try_sorting();
  try_reading();
  try_printing();
  try_arithmetic();
  try_memory();
  try_exhaustion();
  try_surroundings();
  atexit(first_handler);
  HOLDS("7.22.4.2", atexit(second_handler) == 0);
  printf("%d of %d hold, %d are known to differ\n", held, tried, differing);
  return held == tried ? EXIT_SUCCESS : EXIT_FAILURE;
}
