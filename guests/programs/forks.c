/* Forks, to be timed: FORKS children of a process of PAGES private pages, one after another, each of which ends at once
   and is collected. The pages are those of the file, one of the stack, and others that it maps.

   Expect: 1000 forks of 16 pages
   and status 0 of all processes, with each quantum. */
#include "runtime.h"

#ifndef FORKS
#define FORKS 1000
#endif
#ifndef PAGES
#define PAGES 16
#endif

enum { FILE_AT = 0x10000, FILE_END = 0x50000, MORE_AT = 0x40000000 };
#define STACK_AT 0xEFFF0000u

/* How many pages the file has: where one is, none can be mapped. */
static uint32_t pages_of_file(void) {
  uint32_t pages = 0;
  for (uint32_t address = FILE_AT; address < FILE_END; address += PAGE_SIZE)
    if (dos_map(address, 1, MAY_READ) == 0) dos_unmap(address, 1);
    else pages++;
  return pages;
}

int main(void) {
  int32_t status;
  uint32_t pages = pages_of_file() + 1;
  if (dos_unmap(STACK_AT, 15) < 0) return 1;
  if (pages < PAGES && dos_map(MORE_AT, PAGES - pages, MAY_READ | MAY_WRITE) < 0) return 1;
  for (uint32_t i = 0; i < FORKS; i++) {
    int32_t child = dos_fork();
    if (child == 0) dos_process_exit(0);
    if (child < 0 || wait_for(child, &status) != child) return 2;
  }
  print_line("%d forks of %d pages\n", FORKS, PAGES);
  return 0;
}
