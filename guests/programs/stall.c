/* A group in which nobody can go on: it is stalled, which ends the run with status 8. The child reads a pipe until it
   ends. The parent has closed its writing end and waits for the child; but the child has one too, since the fork copied
   both ends, and it never closed it. So the pipe never ends, and each waits for the other.

   Expect: the child reads its own pipe
   and `process 1 live`, `process 2 live`, `rounds 2 stalled`. */
#include "runtime.h"

int main(void) {
  int32_t writing, status;
  char byte;
  int32_t reading = dos_pipe(&writing);
  int32_t child = dos_fork();
  if (child == 0) {
    print_line("the child reads its own pipe\n");
    while (dos_read(reading, &byte, 1) > 0) continue; /* dos_close(writing) is what is missing before this */
    return 0;
  }
  dos_close(writing);
  return dos_wait(child, &status);
}
