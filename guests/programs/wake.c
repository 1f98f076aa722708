/* A sleep that a signal breaks off. The child sleeps on a word that nobody wakes; when its handler has run,
   dos_futex_wait answers -4. A signal that came before the sleep would be of no use, so the parent posts it again until
   the child has ended, and yields in between, since the handler takes from the child's quantum.

   Expect: the sleep answered -4
   and status 0 of the processes 1 and 2, with each quantum. */
#include "runtime.h"

static volatile uint32_t word;

static void handle(uint32_t signal) {
  (void)signal;
}

int main(void) {
  int32_t status;
  catch_signal(SIGNAL_USER, handle); /* before the fork, so the child has it from its start */
  int32_t child = dos_fork();
  if (child == 0) {
    print_line("the sleep answered %d\n", (int)dos_futex_wait(&word, 0));
    return 0;
  }
  do
    for (uint32_t i = 0; i < 100; i++) dos_yield();
  while (dos_kill(child, SIGNAL_USER) == 0);
  wait_for(child, &status);
  return status;
}
