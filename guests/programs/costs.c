/* Some services over and over, to be timed among few and many frames, threads and processes: WORK says which, TURNS how
   often. Beside that there are OWN pages of this process, OTHER pages of another one, SLEEPERS threads of this process
   that sleep, and CROWD processes of one thread each that sleep too. RUN pages are mapped at once by one of the services.

   Expect: costs 1: 1000 turns
   and `process 1 status 0`, and 137 of the others, with each quantum. */
#include "runtime.h"

#ifndef WORK
#define WORK 1
#endif
#ifndef TURNS
#define TURNS 1000
#endif
#ifndef OWN
#define OWN 0
#endif
#ifndef OTHER
#define OTHER 0
#endif
#ifndef SLEEPERS
#define SLEEPERS 0
#endif
#ifndef RUN
#define RUN 1000
#endif
#ifndef CROWD
#define CROWD 0
#endif

enum {
  FREES_LOW = 1, MAPS, SHARES, WAKES_NOBODY, OPENS_PIPE, FLOWS, FORKS, ASKS, CATCHES, STARTS, YIELDS, DUPLICATES, MAPS_RUN
};
enum { LOW_AT = 0x20000000, NEXT_AT = 0x30000000, OWN_AT = 0x40000000, SPARE_AT = 0x80000000 };

static volatile uint32_t asleep ON_A_PAGE, ended ON_A_PAGE;
static unsigned char stack[PAGE_SIZE] ON_A_PAGE;

static void sleep_for_ever(uintptr_t number) {
  (void)number;
  for (;;) dos_futex_wait(&asleep, 0);
}

static void end_thread(void) {
  dos_thread_exit();
}

static void count_signal(uint32_t signal) {
  (void)signal;
  ended++;
}

static bool work(void) {
  static unsigned char bytes[64];
  int32_t status, writing, reading;
  switch (WORK) {
  case FREES_LOW: /* the page at LOW_AT is the lowest frame that can be free */
    return dos_unmap(LOW_AT, 1) == 0 && dos_map(NEXT_AT, 2, MAY_READ) == 0 && dos_unmap(NEXT_AT, 2) == 0
      && dos_map(LOW_AT, 1, MAY_READ) == 0;
  case MAPS: return dos_map(SPARE_AT, 1, MAY_READ) == 0 && dos_unmap(SPARE_AT, 1) == 0;
  case SHARES: return dos_share(LOW_AT, 1) == 0;
  case WAKES_NOBODY: return dos_futex_wake(&ended, 1) == 0;
  case OPENS_PIPE: reading = dos_pipe(&writing); return dos_close(reading) == 0 && dos_close(writing) == 0;
  case FLOWS:
    return dos_write(4, bytes, sizeof bytes) == sizeof bytes && dos_read(3, bytes, sizeof bytes) == sizeof bytes;
  case FORKS:
    reading = dos_fork();
    if (reading == 0) dos_process_exit(0);
    return reading > 0 && wait_for(reading, &status) == reading;
  case ASKS: return dos_kill(1, 0) == 0;
  case CATCHES: dos_kill(1, SIGNAL_USER); dos_yield(); return true;
  case STARTS:
    if (dos_thread_new((uintptr_t)end_thread, (uintptr_t)(stack + sizeof stack), 0) < 0) return false;
    dos_yield();
    return true;
  case YIELDS: dos_yield(); return true;
  case DUPLICATES: return dos_close(dos_dup(1)) == 0;
  case MAPS_RUN: /* below the OWN pages */
    return dos_map(NEXT_AT, RUN, MAY_READ) == 0 && dos_unmap(NEXT_AT, RUN) == 0;
  }
  return false;
}

int main(void) {
  int32_t others[CROWD + 1], writing;
  uint32_t count = 0;
  if (dos_map(LOW_AT, 1, MAY_READ) < 0) return 1;
  for (uint32_t i = 0; i < CROWD + (OTHER > 0); i++) {
    int32_t child = dos_fork();
    if (child == 0) {
      if (i == CROWD && dos_map(OWN_AT, OTHER, MAY_READ) < 0) dos_process_exit(1);
      sleep_for_ever(0);
    }
    if (child < 0) return 2;
    others[count++] = child;
    dos_yield();
    dos_yield();
  }
  if (OWN > 0 && dos_map(OWN_AT, OWN, MAY_READ) < 0) return 3;
  for (uint32_t i = 0; i < SLEEPERS; i++)
    if (thread_start(sleep_for_ever, i) < 0) return 4;
  if (dos_pipe(&writing) != 3 || writing != 4) return 5;
  catch_signal(SIGNAL_USER, count_signal);
  dos_yield();
  dos_yield();
  for (uint32_t turn = 0; turn < TURNS; turn++)
    if (!work()) return 6;
  for (uint32_t i = 0; i < count; i++) dos_kill(others[i], SIGNAL_KILL);
  for (uint32_t i = 0; i < count; i++) {
    int32_t status;
    if (wait_for(others[i], &status) != others[i]) return 7;
  }
  print_line("costs %d: %d turns\n", WORK, TURNS);
  dos_process_exit(0);
}
