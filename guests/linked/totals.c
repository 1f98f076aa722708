/* Fills an array that the file has no bytes for from one that it has, and exits with the low byte of a sum. It calls
   service 2 (exit) with its number in a7 and the status in a0. */
static int table[64] = {3, 1, 2};
static int totals[2000];

void _start(void) {
  for (int i = 0; i < 2000; i++) totals[i] = table[i & 63] + i;
  int sum = 0;
  for (int i = 0; i < 2000; i++) sum += totals[i];
  register long a0 __asm__("a0") = sum & 0xff;
  register long a7 __asm__("a7") = 2;
  __asm__ volatile("ecall" : "+r"(a0) : "r"(a7));
  for (;;) ;
}
