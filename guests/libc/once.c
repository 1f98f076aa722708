#include "once.h"

#include <stdbool.h>

#include "wait.h"

enum { NOT_CALLED, CALLING, CALLED };

void make_once(struct __once *flag, void (*function)(void)) {
  uint32_t expected = NOT_CALLED;
  if (__atomic_compare_exchange_n(&flag->state, &expected, CALLING, false, __ATOMIC_SEQ_CST,
                                  __ATOMIC_SEQ_CST)) {
    function();
    __atomic_store_n(&flag->state, CALLED, __ATOMIC_SEQ_CST);
    wake_all(&flag->state);
  }
  while (flag->state != CALLED) wait_while(&flag->state, CALLING);
}
