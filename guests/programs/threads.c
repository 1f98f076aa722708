/* Makes threads until the kernel refuses one. They do nothing but yield, without a stack, so their entry is in
   assembly. At most 64 threads live at a time, the first one among them. The process then ends with all of them.

   Expect: 63 threads made, the last with number 64, then -11
   and `process 1 status 0`. */
#include "runtime.h"

extern void idle(void);
__asm__("idle:\n\tli a7, 23\n\tecall\n\tj idle");

int main(void) {
  int32_t made = 0, last = 0, answer;
  while ((answer = dos_thread_new((uintptr_t)idle, 0, 0)) > 0) {
    made++;
    last = answer;
  }
  print_decimal(made);
  print(" threads made, the last with number ");
  print_decimal(last);
  print(", then ");
  print_decimal(answer);
  print("\n");
  return 0;
}
