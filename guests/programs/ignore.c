/* A signal that is ignored does nothing, not even to a thread that waits. A child waits for a byte of a pipe; its
   parent posts a signal to it that would else end it, and then writes the byte. With a handler in the place of
   IGNORE_ACTION the child's read would answer -4.

   Expect: the child's read answered 1
   and status 0 of the processes 1 and 2, with each quantum. */
#include "runtime.h"

int main(void) {
  int32_t writing, status;
  char byte = 'x';
  int32_t reading = dos_pipe(&writing);
  dos_sig_handler(SIGNAL_TERMINATE, IGNORE_ACTION); /* before the fork, so the child has it from its start */
  int32_t child = dos_fork();
  if (child == 0) {
    dos_close(writing);
    print_line("the child's read answered %d\n", (int)dos_read(reading, &byte, 1));
    return 0;
  }
  for (uint32_t i = 0; i < 100; i++) dos_yield();
  dos_kill(child, SIGNAL_TERMINATE);
  for (uint32_t i = 0; i < 100; i++) dos_yield();
  write_all(writing, &byte, 1);
  wait_for(child, &status);
  return status;
}
