/* A storm of services: each process of a tree takes steps by chance, from a seed. It sends bytes through a pipe, sleeps
   and is woken, maps and unmaps, takes and gives back memory, duplicates descriptors, and forks. A child takes steps of
   its own, sends what came of each to its parent, leaves its sum in a page that both share, and ends with it as its
   status. What a process comes to depends on its seed alone and not on who runs when, so the sum is the same with each
   quantum, though the order of all that happens isn't.

   Expect: 15486 steps by 443 processes, sum 0x9601a2d8, 0 wrong
   and `process 1 status 0`, with each quantum; one below 100 needs --rounds 1000000. It calls some 114000 services. */
#include "runtime.h"

#ifndef SEED
#define SEED 1
#endif
#ifndef STEPS
#define STEPS 800 /* of the first process; a child takes a quarter of its parent's */
#endif

enum { DEPTH = 3, CHILDREN = 2, REGIONS = 12, BLOCKS = 12, BUFFER = 4096 };
enum { REGIONS_AT = 0x20000000, SHARED_AT = 0x30000000 };

/* What a child and its parent share. */
struct meeting {
  volatile uint32_t is_done;
  uint32_t sum, steps, processes, wrong;
};

static struct {
  uint32_t chance, sum, steps, processes, wrong; /* of this process, and of its children that were collected */
  uint32_t depth;
  struct child {
    int32_t process, reading; /* process is 0 where there is none */
  } children[CHILDREN];
  uint32_t pages[REGIONS]; /* 0 where nothing is mapped */
  struct {
    uint32_t *words, count;
  } blocks[BLOCKS];
} storm;

static unsigned char sent[BUFFER], got[BUFFER];

/* ---- chance and sums ---- */

static uint32_t draw(uint32_t below) {
  storm.chance = storm.chance * 1664525 + 1013904223;
  return (storm.chance >> 8) % below;
}

static void mix(uint32_t number) {
  storm.sum = (storm.sum << 5 | storm.sum >> 27) ^ number;
}

static void expect(bool holds) {
  if (!holds) storm.wrong++;
}

/* Fills the words with what their first one determines, or looks whether they still are so. */
static void fill(uint32_t *words, uint32_t count) {
  words[0] = draw(0x1000000);
  for (uint32_t i = 1; i < count; i++) words[i] = words[i - 1] * 5 + 1;
}

static void look(const uint32_t *words, uint32_t count) {
  mix(words[0]);
  for (uint32_t i = 1; i < count; i++) expect(words[i] == words[i - 1] * 5 + 1);
}

/* ---- a pipe of its own ---- */

static void send(void) {
  int32_t writing, reading = dos_pipe(&writing);
  uint32_t length = 1 + draw(draw(16) == 0 ? BUFFER : 64);
  for (uint32_t i = 0; i < length; i++) sent[i] = (unsigned char)(length * 7 + i * 13);
  expect(write_all(writing, sent, length) == (int32_t)length);
  expect(read_all(reading, got, length) == (int32_t)length);
  expect(memcmp(sent, got, length) == 0);
  dos_close(writing);
  expect(dos_read(reading, got, 1) == 0);
  dos_close(reading);
  mix(length + (uint32_t)reading * 4096);
}

/* ---- sleeps: a thread that gives each number back, once it has one ---- */

static struct {
  volatile uint32_t given, back;
} desk ON_A_PAGE;

static void sleep_until(volatile uint32_t *word, uint32_t value) {
  uint32_t seen;
  while ((seen = *word) != value) dos_futex_wait(word, seen);
}

static void set(volatile uint32_t *word, uint32_t value) {
  *word = value;
  dos_futex_wake(word, EVERYBODY);
}

static void give_back(uintptr_t count) {
  for (uint32_t i = 1; i <= count; i++) {
    sleep_until(&desk.given, i);
    set(&desk.back, i);
  }
}

static void sleep(void) {
  uint32_t count = 1 + draw(4);
  desk.given = desk.back = 0;
  int32_t place = thread_start(give_back, count);
  if (place < 0) {
    storm.wrong++;
    return;
  }
  for (uint32_t i = 1; i <= count; i++) {
    set(&desk.given, i);
    sleep_until(&desk.back, i);
  }
  thread_join(place);
  mix(count);
}

/* ---- memory ---- */

static void change_region(uint32_t number) {
  uint32_t address = REGIONS_AT + number * 16 * PAGE_SIZE;
  uint32_t *words = (uint32_t *)address;
  if (storm.pages[number] == 0) {
    storm.pages[number] = 1 + draw(3);
    expect(dos_map(address, storm.pages[number], MAY_READ | MAY_WRITE) == 0);
    fill(words + draw(64), 16);
    words[1023] = storm.pages[number];
  } else {
    mix(words[1023]);
    expect(words[1023] == storm.pages[number]);
    expect(dos_unmap(address, storm.pages[number]) == 0);
    storm.pages[number] = 0;
  }
}

static void change_block(uint32_t number) {
  if (storm.blocks[number].words == NULL) {
    storm.blocks[number].count = 1 + draw(draw(8) == 0 ? 1500 : 40);
    storm.blocks[number].words = malloc(storm.blocks[number].count * sizeof(uint32_t));
    expect(storm.blocks[number].words != NULL);
    fill(storm.blocks[number].words, storm.blocks[number].count);
  } else {
    look(storm.blocks[number].words, storm.blocks[number].count);
    free(storm.blocks[number].words);
    storm.blocks[number].words = NULL;
  }
}

/* ---- small ones ---- */

static void call_small(void) {
  int32_t copy = dos_dup(OUTPUT);
  expect(copy > 2);
  expect(dos_write((uint32_t)copy, sent, 0) == 0);
  expect(dos_close((uint32_t)copy) == 0);
  expect(dos_close((uint32_t)copy) == BAD_DESCRIPTOR);
  expect(dos_kill(dos_get_pid(), 0) == 0);
  expect(dos_sig_mask(MASK_OF(SIGNAL_USER)) == 0);
  expect(dos_sig_mask(0) == MASK_OF(SIGNAL_USER));
  dos_yield();
  mix((uint32_t)copy);
}

/* ---- children ---- */

static void take_steps(uint32_t steps, int32_t report);

static struct meeting *meeting_of(uint32_t depth, uint32_t place) {
  return (struct meeting *)(SHARED_AT + (depth * CHILDREN + place) * PAGE_SIZE);
}

/* What a child does until its end. */
static _Noreturn void be_child(uint32_t steps, int32_t reading, int32_t writing, struct meeting *meeting) {
  uint32_t seed = draw(0x1000000);
  dos_close((uint32_t)reading);
  memset(&storm, 0, offsetof(__typeof__(storm), depth));
  memset(storm.children, 0, sizeof storm.children);
  storm.chance = seed;
  storm.depth++;
  take_steps(steps, writing);
  dos_close((uint32_t)writing);
  meeting->sum = storm.sum;
  meeting->steps = storm.steps;
  meeting->processes = storm.processes;
  meeting->wrong = storm.wrong;
  set(&meeting->is_done, 1);
  dos_process_exit((int32_t)storm.sum);
}

static void make_child(uint32_t place, uint32_t steps) {
  struct meeting *meeting = meeting_of(storm.depth, place);
  int32_t writing, reading = dos_pipe(&writing);
  expect(dos_map((uint32_t)meeting, 1, MAY_READ | MAY_WRITE) == 0 && dos_share((uint32_t)meeting, 1) == 0);
  int32_t child = dos_fork();
  if (child == 0) be_child(steps, reading, writing, meeting);
  draw(2); /* so that the child's numbers aren't this one's */
  dos_close((uint32_t)writing);
  expect(child > 0);
  storm.children[place] = (struct child){child, reading};
}

/* Reads what the child has sent until it is done, sleeps until its page says so, and collects it. */
static void collect_child(uint32_t place) {
  struct child *child = &storm.children[place];
  struct meeting *meeting = meeting_of(storm.depth, place);
  int32_t status, length;
  uint32_t report[8];
  while ((length = read_all((uint32_t)child->reading, report, sizeof report)) == sizeof report) mix(report[7]);
  expect(length == 0);
  sleep_until(&meeting->is_done, 1);
  expect(wait_for(child->process, &status) == child->process);
  expect(status == (int32_t)(meeting->sum & 255));
  mix(meeting->sum);
  storm.steps += meeting->steps;
  storm.processes += meeting->processes;
  storm.wrong += meeting->wrong;
  dos_close((uint32_t)child->reading);
  expect(dos_unmap((uint32_t)meeting, 1) == 0);
  child->process = 0;
}

/* ---- steps ---- */

static void change_child(uint32_t place, uint32_t steps) {
  if (storm.children[place].process != 0) collect_child(place);
  else if (storm.depth < DEPTH) make_child(place, steps / 4);
}

static void take_step(uint32_t steps) {
  uint32_t kind = draw(32);
  if (kind < 8) send();
  else if (kind < 12) sleep();
  else if (kind < 18) change_region(draw(REGIONS));
  else if (kind < 24) change_block(draw(BLOCKS));
  else if (kind < 30) call_small();
  else change_child(draw(CHILDREN), steps);
}

/* So many steps, and after each a report of 32 bytes where somebody reads them; at last all that is left is collected.
   */
static void take_steps(uint32_t steps, int32_t writing) {
  uint32_t report[8] = {0};
  storm.processes = 1;
  storm.steps = steps;
  for (uint32_t i = 0; i < steps; i++) {
    take_step(steps);
    report[7] = storm.sum;
    if (writing >= 0) expect(write_all((uint32_t)writing, report, sizeof report) == sizeof report);
  }
  for (uint32_t place = 0; place < CHILDREN; place++)
    if (storm.children[place].process != 0) collect_child(place);
}

int main(void) {
  storm.chance = SEED;
  take_steps(STEPS, -1);
  print_line("%d steps by %d processes, sum %x, %d wrong\n", (int)storm.steps, (int)storm.processes,
             (unsigned)storm.sum, (int)storm.wrong);
  return storm.wrong != 0;
}
