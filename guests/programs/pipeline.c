/* Three processes in a row, joined by two pipes: one sends the numbers 1 to COUNT, one sends on their squares, and the
   first adds these up. A pipe holds 4096 bytes, so the senders wait for room now and then. Each process closes the ends
   that it doesn't use: a fork copies both ends of every pipe, and a pipe ends only where no descriptor writes it, in
   whatever process.

   Expect: the squares of 1 to 1800 add up to 1945620300
   and status 0 of the processes 1, 2 and 3, with each quantum. */
#include "runtime.h"

#ifndef COUNT
#define COUNT 1800
#endif

static void send_numbers(uint32_t writing) {
  for (uint32_t i = 1; i <= COUNT; i++) write_all(writing, &i, sizeof i);
}

static void send_squares(uint32_t reading, uint32_t writing) {
  uint32_t number;
  while (read_all(reading, &number, sizeof number) == sizeof number) {
    number *= number;
    write_all(writing, &number, sizeof number);
  }
}

static uint32_t add_up(uint32_t reading) {
  uint32_t sum = 0, number;
  while (read_all(reading, &number, sizeof number) == sizeof number) sum += number;
  return sum;
}

int main(void) {
  int32_t to_squares, to_sum;
  int32_t numbers = dos_pipe(&to_squares);
  if (dos_fork() == 0) {
    dos_close(numbers);
    send_numbers(to_squares);
    return 0;
  }
  dos_close(to_squares);
  int32_t squares = dos_pipe(&to_sum);
  if (dos_fork() == 0) {
    dos_close(squares);
    send_squares(numbers, to_sum);
    return 0;
  }
  dos_close(numbers);
  dos_close(to_sum);
  print_line("the squares of 1 to %d add up to %d\n", COUNT, (int)add_up(squares));
  return 0;
}
