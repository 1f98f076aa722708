/* A service is an ecall. So that a program can be looked at with other tools, the same file runs
   under Linux too, that is in qemu-riscv32, as far as it writes, reads, yields and ends: there
   these calls have Linux's numbers, and the kernel's own services answer NO_CALL. */
#include "calls.h"

static struct answer serve(uint32_t number, uint32_t first, uint32_t second, uint32_t third) {
  register uint32_t a0 __asm__("a0") = first;
  register uint32_t a1 __asm__("a1") = second;
  register uint32_t a2 __asm__("a2") = third;
  register uint32_t a7 __asm__("a7") = number;
  __asm__ volatile("ecall" : "+r"(a0), "+r"(a1) : "r"(a2), "r"(a7) : "memory");
  return (struct answer){(int32_t)a0, a1};
}

static int is_linux;

/* The round is at least 1. Linux's call 24 is dup3, which refuses descriptor -1. */
void find_server(void) {
  is_linux = serve(CALL_ROUND, UINT32_MAX, 0, 0).first < 0;
}

/* Linux's number for the call (asm-generic/unistd.h), or 0. */
static uint32_t linux_number(enum call number) {
  switch (number) {
  case CALL_PROCESS_EXIT: return 94;
  case CALL_READ: return 63;
  case CALL_WRITE: return 64;
  case CALL_GET_PID: return 172;
  case CALL_GET_TID: return 178;
  case CALL_YIELD: return 124;
  default: return 0;
  }
}

struct answer call_for_two(enum call number, uint32_t first, uint32_t second, uint32_t third) {
  if (!is_linux) return serve(number, first, second, third);
  if (linux_number(number) == 0) return (struct answer){NO_CALL, second};
  return serve(linux_number(number), first, second, third);
}
