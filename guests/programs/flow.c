/* Bytes through a pipe between two processes, to be timed: a child writes BLOCKS blocks of 4096 bytes, and its parent
   reads them. A pipe holds one block, so writer and reader take turns.

   Expect: 2000 blocks of 4096 bytes, sum 0
   and status 0 of the processes 1 and 2, with each quantum. */
#include "runtime.h"

#ifndef BLOCKS
#define BLOCKS 2000
#endif

static unsigned char block[PIPE_SIZE] ON_A_PAGE;

int main(void) {
  int32_t writing, reading = dos_pipe(&writing);
  if (dos_fork() == 0) {
    dos_close(reading);
    for (uint32_t i = 0; i < BLOCKS; i++) write_all(writing, block, sizeof block);
    return 0;
  }
  dos_close(writing);
  uint32_t sum = 0, blocks = 0;
  while (read_all(reading, block, sizeof block) == sizeof block) {
    sum += block[0];
    blocks++;
  }
  print_line("%d blocks of %d bytes, sum %d\n", (int)blocks, (int)sizeof block, (int)sum);
  return 0;
}
