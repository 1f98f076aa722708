/* Writes a line to standard output and exits with 0. A service is an ecall with its number in a7 and its arguments in
   a0 to a2; 8 writes a2 bytes from the address a1 on to the descriptor a0, and 2 exits with the status a0. */
static long service(long number, long a, long b, long c) {
  register long a0 __asm__("a0") = a;
  register long a1 __asm__("a1") = b;
  register long a2 __asm__("a2") = c;
  register long a7 __asm__("a7") = number;
  __asm__ volatile("ecall" : "+r"(a0) : "r"(a1), "r"(a2), "r"(a7) : "memory");
  return a0;
}

static const char text[] = "Hello from a linker's file\n";

void _start(void) {
  service(8, 1, (long)text, sizeof text - 1);
  service(2, 0, 0, 0);
  for (;;) ;
}
