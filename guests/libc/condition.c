#include "condition.h"

#include <stdbool.h>

#include "wait.h"

uint32_t condition_enter(struct __condition *condition) {
  return __atomic_fetch_add(&condition->arrived, 1, __ATOMIC_SEQ_CST);
}

void condition_sleep(struct __condition *condition, uint32_t number) {
  uint32_t released;
  while ((int32_t)((released = condition->released) - number) <= 0)
    wait_while(&condition->released, released);
}

void condition_release(struct __condition *condition, uint32_t most) {
  uint32_t released = condition->released, waiting;
  do {
    waiting = condition->arrived - released;
    if (waiting == 0) return;
  } while (!__atomic_compare_exchange_n(&condition->released, &released,
                                        released + (waiting < most ? waiting : most), false,
                                        __ATOMIC_SEQ_CST, __ATOMIC_SEQ_CST));
  wake_all(&condition->released);
}
