/* A handler for a signal that the process posts to itself. The signal comes at the next round's start, wherever the
   thread is then, so the program yields until it has come. When the handler returns, the thread goes on as it was.

   Expect: signal 10 came, 1 times so far
           signal 10 came, 2 times so far
           signal 10 came, 3 times so far
           and it adds up to 5050
   and `process 1 status 0`, with each quantum. */
#include "runtime.h"

static volatile uint32_t came;

static void handle(uint32_t signal) {
  came++;
  print_line("signal %d came, %d times so far\n", (int)signal, (int)came);
}

int main(void) {
  catch_signal(SIGNAL_USER, handle);
  uint32_t sum = 0, number = 0;
  for (uint32_t posts = 1; posts <= 3; posts++) {
    dos_kill(dos_get_pid(), SIGNAL_USER);
    while (came < posts) {
      if (number < 100) sum += ++number;
      dos_yield();
    }
  }
  while (number < 100) sum += ++number;
  print_line("and it adds up to %d\n", (int)sum);
  return 0;
}
