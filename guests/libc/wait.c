/* Waiting by the services futex_wait and futex_wake: a thread that waits sleeps. Where nobody
   serves them, which is under Linux, there is one thread, and it waits for nobody. */
#include "wait.h"

#include "calls.h"

void wait_while(volatile uint32_t *word, uint32_t value) {
  call(CALL_FUTEX_WAIT, (uint32_t)word, value, 0);
}

void wake_all(volatile uint32_t *word) {
  call(CALL_FUTEX_WAKE, (uint32_t)word, UINT32_MAX, 0);
}

void wake_one(volatile uint32_t *word) {
  call(CALL_FUTEX_WAKE, (uint32_t)word, 1, 0);
}

_Noreturn void end_thread(volatile uint32_t *word, uint32_t value) {
  register uint32_t place __asm__("a0") = (uint32_t)word;
  register uint32_t count __asm__("a1") = UINT32_MAX;
  register uint32_t wake __asm__("a7") = CALL_FUTEX_WAKE;
  __asm__ volatile("sw %3, 0(%0)\n\tecall\n\tli a7, %4\n\tecall"
                   : "+r"(place)
                   : "r"(count), "r"(wake), "r"(value), "i"(CALL_THREAD_EXIT)
                   : "memory");
  __builtin_unreachable();
}
