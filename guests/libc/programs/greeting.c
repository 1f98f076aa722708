/* An ordinary program: main and printf.

   Expect: Hello, world: a third is 0.333333
   and `process 1 status 0`. */
#include <stdio.h>

int main(void) {
  printf("Hello, world: a third is %f\n", 1.0 / 3);
  return 0;
}
