/* A plain interpreter of guests, as a C programmer would write it: the baseline of bench/run for the whole program.
   One flat memory behind a table of pages: threads take turns of the quantum, round after round, and a service is done
   where it is met. Each access makes the tests that the proved one makes: aligned, mapped, the right, and whose the page
   is. A page that is another's changes its owner at once.
   usage: plain_guest FILE QUANTUM */
#include <stdint.h>
#include <stdio.h>
#include <stdlib.h>
#include <string.h>

enum { THREADS = 64, PAGES = 1 << 20, W = 1, X = 2 };

struct thread { uint32_t pc, x[32], held; int lives, holds; };
struct page { uint8_t *bytes; int rights; struct thread *owner; }; /* no owner: everybody reads it */

static struct page pages[PAGES];
static struct thread threads[THREADS];
static uint32_t given;
static uint64_t rounds;
static uint32_t status;

enum stop { STEPPED = -1, SERVICE = -2 };

static inline int32_t s(uint32_t a) { return (int32_t)a; }

/* The bytes of an access of thread m, or none; *stop then says why. */
static inline uint8_t *reach(struct thread *m, uint32_t address, uint32_t size, int right, int *stop) {
  if (address & (size - 1)) { *stop = 7; return NULL; }
  struct page *p = &pages[address >> 12];
  if (!p->bytes || (p->rights & right) != right) { *stop = 11; return NULL; }
  if (p->owner != m && (p->owner || right == W)) p->owner = right == W ? m : NULL;
  return p->bytes + (address & 4095);
}

#define LOAD(type, convert) { uint8_t *at = reach(m, a + (uint32_t)imm, sizeof(type), 0, &stop); if (!at) return stop; type v; memcpy(&v, at, sizeof v); value = (uint32_t)(convert)v; break; }
#define STORE(type) { uint8_t *at = reach(m, t, sizeof(type), W, &stop); if (!at) return stop; type v = (type)b; memcpy(at, &v, sizeof v); break; }

/* One instruction: STEPPED, SERVICE, or the number of a fault. */
static inline int one(struct thread *m) {
  int stop = 0;
  uint8_t *code = reach(m, m->pc, 4, X, &stop);
  if (!code) return stop;
  uint32_t w, next = m->pc + 4, value = 0;
  memcpy(&w, code, 4);
  uint32_t rd = w >> 7 & 31, f3 = w >> 12 & 7, a = m->x[w >> 15 & 31], b = m->x[w >> 20 & 31], f7 = w >> 25;
  int32_t imm = s(w) >> 20;
  switch (w & 127) {
  case 0x37: value = w & 0xfffff000; break;
  case 0x17: value = m->pc + (w & 0xfffff000); break;
  case 0x6f: {
    int32_t o = s(((w >> 31) << 31) | ((w >> 12 & 255) << 23) | ((w >> 20 & 1) << 22) | ((w >> 21 & 1023) << 12)) >> 11;
    uint32_t t = m->pc + (uint32_t)o;
    if (t & 3) return 7;
    value = next; next = t; break;
  }
  case 0x67: {
    if (f3) return 4;
    uint32_t t = (a + (uint32_t)imm) & ~1u;
    if (t & 3) return 7;
    value = next; next = t; break;
  }
  case 0x63: {
    int taken;
    switch (f3) {
    case 0: taken = a == b; break;
    case 1: taken = a != b; break;
    case 4: taken = s(a) < s(b); break;
    case 5: taken = s(a) >= s(b); break;
    case 6: taken = a < b; break;
    case 7: taken = a >= b; break;
    default: return 4;
    }
    if (taken) {
      int32_t o = s(((w >> 31) << 31) | ((w >> 7 & 1) << 30) | ((w >> 25 & 63) << 24) | ((w >> 8 & 15) << 20)) >> 19;
      uint32_t t = m->pc + (uint32_t)o;
      if (t & 3) return 7;
      next = t;
    }
    m->pc = next;
    return STEPPED;
  }
  case 0x03:
    switch (f3) {
    case 0: LOAD(int8_t, int32_t)
    case 1: LOAD(int16_t, int32_t)
    case 2: LOAD(uint32_t, uint32_t)
    case 4: LOAD(uint8_t, uint32_t)
    case 5: LOAD(uint16_t, uint32_t)
    default: return 4;
    }
    break;
  case 0x23: {
    uint32_t t = a + (uint32_t)((s(w) >> 25 << 5) | (int32_t)(w >> 7 & 31));
    switch (f3) {
    case 0: STORE(uint8_t)
    case 1: STORE(uint16_t)
    case 2: STORE(uint32_t)
    default: return 4;
    }
    m->pc = next;
    return STEPPED;
  }
  case 0x13:
    switch (f3) {
    case 0: value = a + (uint32_t)imm; break;
    case 1: if (f7) return 4; value = a << (w >> 20 & 31); break;
    case 2: value = s(a) < imm; break;
    case 3: value = a < (uint32_t)imm; break;
    case 4: value = a ^ (uint32_t)imm; break;
    case 5: if (f7 == 0) value = a >> (w >> 20 & 31); else if (f7 == 32) value = (uint32_t)(s(a) >> (w >> 20 & 31)); else return 4; break;
    case 6: value = a | (uint32_t)imm; break;
    default: value = a & (uint32_t)imm; break;
    }
    break;
  case 0x33:
    switch (f7 << 3 | f3) {
    case 0: value = a + b; break;
    case 0x100: value = a - b; break;
    case 1: value = a << (b & 31); break;
    case 2: value = s(a) < s(b); break;
    case 3: value = a < b; break;
    case 4: value = a ^ b; break;
    case 5: value = a >> (b & 31); break;
    case 0x105: value = (uint32_t)(s(a) >> (b & 31)); break;
    case 6: value = a | b; break;
    case 7: value = a & b; break;
    case 8: value = a * b; break;
    case 9: value = (uint32_t)((int64_t)s(a) * s(b) >> 32); break;
    case 10: value = (uint32_t)((int64_t)s(a) * (int64_t)(uint64_t)b >> 32); break;
    case 11: value = (uint32_t)((uint64_t)a * b >> 32); break;
    case 12: value = b == 0 ? ~0u : a == 0x80000000u && b == ~0u ? a : (uint32_t)(s(a) / s(b)); break;
    case 13: value = b == 0 ? ~0u : a / b; break;
    case 14: value = b == 0 ? a : a == 0x80000000u && b == ~0u ? 0 : (uint32_t)(s(a) % s(b)); break;
    case 15: value = b == 0 ? a : a % b; break;
    default: return 4;
    }
    break;
  case 0x2f: {
    if (f3 != 2) return 4;
    uint8_t *at = reach(m, a, 4, W, &stop);
    if (!at) return stop;
    uint32_t old, put = 0;
    memcpy(&old, at, 4);
    int stores = 1;
    value = old;
    switch (w >> 27) {
    case 2: stores = 0; m->held = a; m->holds = 1; break;
    case 3: stores = m->holds && m->held == a; put = b; value = !stores; m->holds = 0; break;
    case 1: put = b; break;
    case 0: put = old + b; break;
    case 4: put = old ^ b; break;
    case 12: put = old & b; break;
    case 8: put = old | b; break;
    case 16: put = s(old) < s(b) ? old : b; break;
    case 20: put = s(old) > s(b) ? old : b; break;
    case 24: put = old < b ? old : b; break;
    case 28: put = old > b ? old : b; break;
    default: return 4;
    }
    if (stores) memcpy(at, &put, 4);
    break;
  }
  case 0x0f: if (f3 > 1) return 4; m->pc = next; return STEPPED;
  case 0x73: return w == 0x73 ? SERVICE : w == 0x100073 ? 5 : 4;
  default: return 4;
  }
  if (rd) m->x[rd] = value;
  m->pc = next;
  return STEPPED;
}

static void end_all(uint32_t with) {
  for (uint32_t i = 0; i < given; i++) threads[i].lives = 0;
  status = with & 255;
}

static void map(uint32_t page, int rights) {
  if (!pages[page].bytes) pages[page].bytes = calloc(1, 4096);
  pages[page].owner = &threads[0];
  pages[page].rights |= rights;
}

/* A service of thread t; 0 where its part in this round is over. */
static int serve(uint32_t t) {
  struct thread *m = &threads[t];
  uint32_t *a = m->x + 10, answer = 0;
  int on = 1;
  m->pc += 4;
  m->holds = 0;
  switch (m->x[17]) {
  case 1: {
    uint32_t live = 0;
    m->lives = 0;
    for (uint32_t i = 0; i < given; i++) live += (uint32_t)threads[i].lives;
    if (!live) status = 0;
    return 0;
  }
  case 2: end_all(a[0]); return 0;
  case 3:
    if (given == THREADS) { answer = (uint32_t)-11; break; }
    threads[given] = (struct thread){.pc = a[0], .lives = 1};
    threads[given].x[2] = a[1];
    threads[given].x[10] = a[2];
    answer = ++given;
    break;
  case 8: {
    uint32_t n = a[2] < 4096 ? a[2] : 4096;
    if (a[0] != 1 && a[0] != 2) { answer = (uint32_t)-9; break; }
    for (uint32_t i = 0; i < n; i++) fputc(pages[(a[1] + i) >> 12].bytes[(a[1] + i) & 4095], a[0] == 1 ? stdout : stderr);
    answer = n;
    break;
  }
  case 20: answer = 1; break;
  case 21: answer = t + 1; break;
  case 23: on = 0; break;
  case 24: answer = (uint32_t)rounds + 1; break;
  default: answer = (uint32_t)-38;
  }
  a[0] = answer;
  return on;
}

static void load_file(const char *name) {
  static uint8_t file[1 << 22];
  FILE *f = fopen(name, "rb");
  if (!f) exit(5);
  size_t size = fread(file, 1, sizeof file, f);
  fclose(f);
  if (size < 52) exit(3);
  uint32_t entry, at;
  uint16_t count;
  memcpy(&entry, file + 24, 4);
  memcpy(&at, file + 28, 4);
  memcpy(&count, file + 44, 2);
  for (uint16_t i = 0; i < count; i++, at += 32) {
    uint32_t h[8];
    memcpy(h, file + at, 32);
    if (h[0] != 1 || h[5] == 0) continue;
    for (uint32_t p = h[2] >> 12; p <= (h[2] + h[5] - 1) >> 12; p++) map(p, (h[6] & 2 ? W : 0) | (h[6] & 1 ? X : 0));
    for (uint32_t k = 0; k < h[4]; k++) pages[(h[2] + k) >> 12].bytes[(h[2] + k) & 4095] = file[h[1] + k];
  }
  for (uint32_t p = 0xEFFF0; p < 0xF0000; p++) map(p, W);
  threads[0] = (struct thread){.pc = entry, .lives = 1};
  threads[0].x[2] = 0xEFFFFFF0;
  given = 1;
}

/* One thread's turn of at most so many instructions and services. */
static uint64_t turn(uint32_t t, uint32_t quantum) {
  struct thread *m = &threads[t];
  m->holds = 0;
  for (uint32_t left = quantum; left; left--) {
    int stop = one(m);
    if (stop == STEPPED) continue;
    if (stop != SERVICE) { end_all(128 + (uint32_t)stop); return quantum - left; }
    if (!serve(t)) return quantum - left + 1;
  }
  return quantum;
}

int main(int argc, char **argv) {
  if (argc != 3) return 2;
  load_file(argv[1]);
  uint32_t quantum = (uint32_t)strtoul(argv[2], NULL, 10);
  uint64_t done = 0;
  for (int lives = 1; lives; rounds++) {
    uint32_t ready = given;
    for (uint32_t t = 0; t < ready; t++) if (threads[t].lives) done += turn(t, quantum);
    lives = 0;
    for (uint32_t t = 0; t < given; t++) lives |= threads[t].lives;
  }
  fflush(stdout);
  fprintf(stderr, "process 1 status %u\nrounds %llu done\ninstructions %llu\n", status, (unsigned long long)rounds, (unsigned long long)done);
  return 0;
}
