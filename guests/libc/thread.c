/* Threads on the services. A thread has a slot of addresses for its block: its stack at the bottom,
   and above it, on pages of their own, its thread-local variables and what is known of it. What is
   left of the slot, at least a page, lies below the stack and isn't mapped: so a stack that
   overflows ends with status 139. */
#include "thread.h"

#include <errno.h>
#include <stdlib.h>

#include "calls.h"
#include "keys.h"
#include "wait.h"

/* The slots lie between the heap and the attached input: see guest.ld. */
enum { PAGE = 4096, SLOTS = 63, SLOT = 4 << 20, FIRST_SLOT = 0x50000000, READ_AND_WRITE = 6 };

/* Of a thread: it runs and may be joined; it ends, and its block is still used; it ends by itself,
   and nobody joins it; it has ended. */
enum { LIVES, LEAVES, DETACHED, ENDED };

extern char __tls_size[], __tls_align[], __thread_stack_size[];
extern void thread_entry(void);

/* How many threads haven't ended: the last one ends the process as exit(EXIT_SUCCESS) does. */
static volatile uint32_t living = 1;
static struct thread first_thread;
static _Thread_local struct thread *current;

/* Which slots are taken. */
static volatile uint32_t slots[SLOTS];

size_t thread_stack_size(void) {
  return (size_t)__thread_stack_size;
}

struct thread *thread_current(void) {
  return current != NULL ? current : &first_thread;
}

static size_t round_up(size_t bytes, size_t to) {
  return (bytes + to - 1) & -to;
}

/* Takes a slot; SLOTS where none is free. */
static uint32_t take_slot(void) {
  for (uint32_t slot = 0; slot < SLOTS; slot++) {
    uint32_t is_taken = false;
    if (__atomic_compare_exchange_n(&slots[slot], &is_taken, true, false, __ATOMIC_SEQ_CST,
                                    __ATOMIC_SEQ_CST))
      return slot;
  }
  return SLOTS;
}

static void give_slot(uint32_t slot) {
  __atomic_store_n(&slots[slot], false, __ATOMIC_SEQ_CST);
}

/* Frees the block of a thread that has ended. */
static void free_block(const struct thread *thread) {
  uint32_t slot = thread->slot;
  call(CALL_UNMAP, thread->first, thread->pages, 0);
  give_slot(slot);
}

/* The same by the calling thread, which ends with it: from the first call on it has no stack. */
static _Noreturn void leave_block(const struct thread *thread) {
  register uint32_t first __asm__("a0") = thread->first;
  register uint32_t pages __asm__("a1") = thread->pages;
  register uint32_t unmap __asm__("a7") = CALL_UNMAP;
  __asm__ volatile("ecall\n\tsw zero, 0(%3)\n\tli a7, %4\n\tecall"
                   : "+r"(first)
                   : "r"(pages), "r"(unmap), "r"(&slots[thread->slot]), "i"(CALL_THREAD_EXIT)
                   : "memory");
  __builtin_unreachable();
}

int thread_make(struct thread **made, struct body body, size_t stack, bool is_detached) {
  size_t align = (size_t)__tls_align > 16 ? (size_t)__tls_align : 16;
  size_t before = round_up(sizeof(struct thread), align);
  size_t head = round_up(before + (size_t)__tls_size, PAGE);
  size_t size = round_up(stack, PAGE) + head;
  if (size > SLOT - PAGE) return ENOMEM;
  uint32_t slot = take_slot();
  if (slot == SLOTS) return EAGAIN;
  uint32_t end = FIRST_SLOT + (slot + 1) * SLOT, first = end - size;
  if (call(CALL_MAP, first, size / PAGE, READ_AND_WRITE) != 0) {
    give_slot(slot);
    return ENOMEM;
  }
  struct thread *thread = (struct thread *)(end - head);
  *thread = (struct thread){.tls = (char *)thread + before,
                            .body = body,
                            .state = is_detached ? DETACHED : LIVES,
                            .slot = slot,
                            .first = first,
                            .pages = size / PAGE};
  fill_tls(thread->tls);
  *made = thread;
  __atomic_fetch_add(&living, 1, __ATOMIC_SEQ_CST);
  if (call(CALL_THREAD_NEW, (uint32_t)thread_entry, (uint32_t)thread, (uint32_t)thread) > 0)
    return 0;
  __atomic_fetch_sub(&living, 1, __ATOMIC_SEQ_CST);
  free_block(thread);
  return EAGAIN;
}

/* What a new thread does: start.S has set gp and tp. */
_Noreturn void thread_body(struct thread *thread) {
  struct body body = thread->body;
  current = thread;
  thread_end(body.numbered != NULL ? (void *)(intptr_t)body.numbered(body.argument)
                                   : body.pointed(body.argument));
}

/* The first thread's stack isn't freed: it is the image's. */
_Noreturn void thread_end(void *result) {
  struct thread *thread = thread_current();
  uint32_t lives = LIVES;
  call_key_destructors();
  thread->result = result;
  if (__atomic_fetch_sub(&living, 1, __ATOMIC_SEQ_CST) == 1) exit(EXIT_SUCCESS);
  if (thread == &first_thread ||
      __atomic_compare_exchange_n(&thread->state, &lives, LEAVES, false, __ATOMIC_SEQ_CST,
                                  __ATOMIC_SEQ_CST))
    end_thread(&thread->state, ENDED);
  leave_block(thread);
}

void *thread_join(struct thread *thread) {
  uint32_t state;
  while ((state = thread->state) != ENDED) wait_while(&thread->state, state);
  void *result = thread->result;
  if (thread != &first_thread) free_block(thread);
  return result;
}

void thread_detach(struct thread *thread) {
  uint32_t lives = LIVES;
  if (thread == &first_thread) return;
  if (!__atomic_compare_exchange_n(&thread->state, &lives, DETACHED, false, __ATOMIC_SEQ_CST,
                                   __ATOMIC_SEQ_CST))
    thread_join(thread);
}

bool thread_is_detached(const struct thread *thread) {
  return thread->state == DETACHED;
}

void thread_forked(void) {
  living = 1;
}
