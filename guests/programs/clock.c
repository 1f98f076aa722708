/* Prints what time it is, by the clock of the outside, which counts nanoseconds since 1970, as a date and time of day in
   UTC; then how many nanoseconds its next look is behind the first.

   Expect, with --clock-from 1000000000000000000 and --clock-step 250: `2001-09-09 01:46:40` and `250 nanoseconds later`,
   and `process 1 status 0`. */
#include "runtime.h"

enum { SECONDS_A_DAY = 86400 };

static bool is_leap(uint32_t year) { return (year % 4 == 0 && year % 100 != 0) || year % 400 == 0; }

static uint32_t days_of(uint32_t month, uint32_t year) {
  static const uint8_t days[12] = {31, 28, 31, 30, 31, 30, 31, 31, 30, 31, 30, 31};
  return days[month] + (month == 1 && is_leap(year) ? 1 : 0);
}

/* Two digits. */
static void print_two(uint32_t number) {
  print(number < 10 ? "0" : "");
  print_decimal((int32_t)number);
}

static void print_date(uint32_t days) {
  uint32_t year = 1970, month = 0;
  while (days >= (is_leap(year) ? 366u : 365u)) days -= is_leap(year++) ? 366 : 365;
  while (days >= days_of(month, year)) days -= days_of(month++, year);
  print_decimal((int32_t)year);
  print("-");
  print_two(month + 1);
  print("-");
  print_two(days + 1);
}

int main(void) {
  uint64_t now = dos_clock();
  uint64_t later = dos_clock();
  uint64_t seconds = now / 1000000000u;
  uint32_t of_day = (uint32_t)(seconds % SECONDS_A_DAY);
  print_date((uint32_t)(seconds / SECONDS_A_DAY));
  print(" ");
  print_two(of_day / 3600);
  print(":");
  print_two(of_day / 60 % 60);
  print(":");
  print_two(of_day % 60);
  print("\n");
  print_decimal((int32_t)(later - now));
  print(" nanoseconds later\n");
  return 0;
}
