/* A hail of services: each thread calls services by chance, with arguments by chance of which many are refused, and
   takes what each leaves in a0, a1 and a2 into a sum, which it writes out at each 64th. Other than storm's, its bytes
   depend on everything: on the quantum, each refusal, who owns which page, and who waits, wakes and is signalled when.
   It is for comparing two machines that are to be the same. Given several times each process has another chance, by its
   number.

   Expect: it runs until --rounds is reached, or until nobody can go on; checks/hail has what comes. */
#include "runtime.h"

enum { WINDOW_AT = 0x40000000, WINDOW = 10, WORDS = 6 };

/* A thread's chance, sum, and how many services it has called; the first thread of a process calls none that waits. */
struct hail {
  uint32_t chance, sum, calls;
  bool is_first;
};

static struct {
  volatile uint32_t words[WORDS];
  unsigned char bytes[4096];
} area ON_A_PAGE;

static volatile uint32_t signals; /* a sum of those that were handled */

static uint32_t draw(struct hail *hail, uint32_t below) {
  hail->chance = hail->chance * 1664525 + 1013904223;
  return (hail->chance >> 8) % below;
}

static void mix(struct hail *hail, uint32_t number) {
  hail->sum = (hail->sum << 5 | hail->sum >> 27) ^ number;
}

/* Calls a service, and mixes what it leaves in three registers. */
static uint32_t call(struct hail *hail, uint32_t number, uint32_t first, uint32_t second, uint32_t third) {
  register uint32_t a0 __asm__("a0") = first;
  register uint32_t a1 __asm__("a1") = second;
  register uint32_t a2 __asm__("a2") = third;
  register uint32_t a7 __asm__("a7") = number;
  __asm__ volatile("ecall" : "+r"(a0), "+r"(a1), "+r"(a2) : "r"(a7) : "memory");
  uint32_t answer = a0, other = a1, last = a2;
  mix(hail, answer);
  mix(hail, other);
  mix(hail, last);
  return answer;
}

static void handle(uint32_t signal) {
  signals = signals * 31 + signal;
  if (signal % 4 == 0) dos_yield();
}

/* ---- arguments ---- */

/* Where a read may store without harm, where it is refused, and over the edge of a page. */
static uint32_t some_address(struct hail *hail) {
  switch (draw(hail, 8)) {
  case 0: return WINDOW_AT + draw(hail, WINDOW * PAGE_SIZE);
  case 1: return WINDOW_AT + draw(hail, WINDOW) * PAGE_SIZE - 1;
  case 2: return (uint32_t[]){0, 0xFFF, 0x10000, 0xEFFFFFFF, 0xF0000000, 0xFFFFFFFF}[draw(hail, 6)];
  default: return (uint32_t)&area.bytes + draw(hail, 64);
  }
}

static uint32_t some_length(struct hail *hail) {
  return (uint32_t[]){0, 1, 7, 64, 1000, 4096, 4097, 0xFFFFFFFF}[draw(hail, 8)];
}

static uint32_t some_word(struct hail *hail) {
  switch (draw(hail, 8)) {
  case 0: return WINDOW_AT + 2;
  case 1: return WINDOW_AT + draw(hail, WINDOW) * PAGE_SIZE + PAGE_SIZE - 4;
  case 2:
  case 3:
  case 4: return WINDOW_AT + draw(hail, 2) * PAGE_SIZE;
  default: return (uint32_t)&area.words[draw(hail, WORDS)];
  }
}

static uint32_t some_pages_at(struct hail *hail) {
  if (draw(hail, 16) == 0) return (uint32_t[]){0, 0x800, 0xF0000000, 0xEFFEF000}[draw(hail, 4)];
  return WINDOW_AT + draw(hail, WINDOW) * PAGE_SIZE;
}

static uint32_t some_process(struct hail *hail) {
  return draw(hail, 4) == 0 ? draw(hail, 200) : (uint32_t)dos_get_pid();
}

/* Any but 9, which comes seldom. */
static uint32_t some_signal(struct hail *hail) {
  uint32_t signal = draw(hail, 33);
  return signal == 9 && draw(hail, 8) > 0 ? 10 : signal;
}

static uint32_t some_action(struct hail *hail) {
  extern void signal_entry(void);
  switch (draw(hail, 32)) {
  case 0: return DEFAULT_ACTION;
  case 1: return 2;
  case 2: return 0xF0000000;
  case 3:
  case 4: return IGNORE_ACTION;
  default: return (uint32_t)(uintptr_t)signal_entry;
  }
}

/* ---- calls ---- */

static void run(uintptr_t argument);

/* A thread without a stack that yields three times and ends. */
extern void pass(void);
__asm__(".balign 4\npass:\n\tli a7, 23\n\tecall\n\tecall\n\tecall\n\tli a7, 1\n\tecall");

static void call_process(struct hail *hail) {
  uint32_t kind = draw(hail, 64);
  if (kind < 12) thread_start(run, hail->chance);
  else if (kind < 24 && call(hail, 4, 0, 0, 0) == 0) hail->chance ^= (uint32_t)dos_get_pid() * 0x9E3779B9;
  else if (kind < 39) call(hail, 3, (uint32_t)(uintptr_t)pass + draw(hail, 2) * draw(hail, 4), 0, 0);
  else if (kind == 39 && dos_get_pid() > 8) call(hail, 3, 0, 0, 0); /* a fault, where it begins */
  else if (kind == 40 && !hail->is_first) call(hail, 18, 0, 0, 0);
  else if (kind < 44 && dos_get_pid() > 8) call(hail, 2, draw(hail, 512), 0, 0);
  else if (kind < 50 && !hail->is_first) call(hail, 1, 0, 0, 0);
  else call(hail, draw(hail, 2) == 0 ? 25 + draw(hail, 100) : 0xFFFFFFFF, 0, 0, 0);
}

static void sleep(struct hail *hail, uint32_t word) {
  call(hail, 11, (uint32_t)&area.words[word], area.words[word], 0);
}

static void call_waiting(struct hail *hail) {
  if (hail->is_first) call(hail, 12, some_word(hail), draw(hail, 4), 0);
  else if (draw(hail, 2) == 0) call(hail, 5, draw(hail, 2) == 0 ? 0 : draw(hail, 100), 0, 0);
  else if (draw(hail, 2) == 0) call(hail, 11, some_word(hail), draw(hail, 3) == 0, 0);
  else sleep(hail, draw(hail, WORDS));
}

static void call_pipe(struct hail *hail) {
  uint32_t first = hail->is_first ? 0 : 3; /* input and output don't wait */
  switch (draw(hail, 6)) {
  case 0: call(hail, 6, 0, 0, 0); break;
  case 1: call(hail, 9, 3 + draw(hail, 31), 0, 0); break;
  case 2: call(hail, 10, draw(hail, 34), 0, 0); break;
  case 3:
  case 4: {
    uint32_t descriptor = draw(hail, first + 1) == 0 ? 0 : 3 + draw(hail, 9);
    call(hail, 7, descriptor, some_address(hail), some_length(hail));
    break;
  }
  default: call(hail, 8, first == 0 ? 0 : 3 + draw(hail, 9), some_address(hail), some_length(hail));
  }
}

static void call_any(struct hail *hail) {
  switch (draw(hail, 16)) {
  case 0: call_process(hail); break;
  case 1:
  case 2: call_waiting(hail); break;
  case 3:
  case 4:
  case 5: call_pipe(hail); break;
  case 6: call(hail, 12, some_word(hail), draw(hail, 4), 0); break;
  case 7: call(hail, 13, some_pages_at(hail), draw(hail, 4), draw(hail, 9)); break;
  case 8: call(hail, 14, some_pages_at(hail), draw(hail, 3), 0); break;
  case 9: call(hail, 15, some_pages_at(hail), draw(hail, 3), 0); break;
  case 10: call(hail, 16, draw(hail, 33), some_action(hail), 0); break;
  case 11: call(hail, 17, draw(hail, 2) == 0 ? 0 : hail->chance, 0, 0); break;
  case 12: call(hail, 19, some_process(hail), some_signal(hail), 0); break;
  case 13: call(hail, 20 + draw(hail, 5), 0, 0, 0); break;
  case 14: mix(hail, atomic_add(&area.words[draw(hail, WORDS)], draw(hail, 2))); break;
  default: mix(hail, area.words[draw(hail, WORDS)] + signals);
  }
}

static _Noreturn void fall(struct hail *hail) {
  for (;;) {
    call_any(hail);
    if (++hail->calls % 64 == 0) print_line("%d %d %x\n", (int)dos_get_pid(), (int)dos_get_tid(), (unsigned)hail->sum);
  }
}

static void run(uintptr_t argument) {
  struct hail hail = {argument, 0, 0, false};
  fall(&hail);
}

int main(void) {
  struct hail hail = {(uint32_t)dos_get_pid(), 0, 0, true};
  for (uint32_t signal = 1; signal <= 31; signal++)
    if (signal != SIGNAL_KILL) catch_signal(signal, handle);
  dos_map(WINDOW_AT, 2, MAY_READ | MAY_WRITE);
  dos_share(WINDOW_AT, 1);
  for (uint32_t i = 0; i < 3; i++) thread_start(run, draw(&hail, 0x1000000));
  fall(&hail);
}
