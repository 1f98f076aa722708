/* The heap. Each chunk knows its size and that of the one before it, so a chunk that is freed is
   joined with free neighbours at once; free chunks stand in lists by size, eight for each power of
   two, so that none has to be searched for. picolibc's own malloc keeps one list and walks it. */
#include <errno.h>
#include <malloc.h>
#include <stdbool.h>
#include <stdint.h>
#include <stdlib.h>
#include <string.h>
#include <unistd.h>

#include "lock.h"

/* Sizes are whole units; what malloc gives begins at one, HEADER bytes behind its chunk. */
enum { UNIT = 16, HEADER = 8, USED = 1, LISTS = 216, WORDS = (LISTS + 31) / 32, STEP = 4096 };

/* The most bytes of a chunk: more than there are frames. */
static const size_t MOST = 1 << 30;

struct chunk {
  uint32_t before;           /* the size of the chunk before it, or 0 where there is none */
  uint32_t size;             /* its bytes, header and all, plus USED */
  struct chunk *next, *last; /* its neighbours in its list, where it is free */
};

static struct __lock heap_lock;
static struct chunk *lists[LISTS];
static uint32_t filled[WORDS]; /* a bit for each list that isn't empty */
static struct chunk *end;      /* a header alone, which is used, behind the last chunk */

static uint32_t size_of(const struct chunk *chunk) {
  return chunk->size & ~(uint32_t)USED;
}

static struct chunk *behind(struct chunk *chunk) {
  return (struct chunk *)((char *)chunk + size_of(chunk));
}

static struct chunk *chunk_of(void *given) {
  return (struct chunk *)((char *)given - HEADER);
}

static void *given_of(struct chunk *chunk) {
  return (char *)chunk + HEADER;
}

/* ---- lists ---- */

/* The list of chunks of this size: one for each size up to seven units, then eight for a power of
   two. */
static uint32_t list_of(uint32_t size) {
  uint32_t units = size / UNIT;
  if (units < 8) return units;
  uint32_t power = 31 - (uint32_t)__builtin_clz(units);
  return 8 * (power - 2) + (units >> (power - 3)) % 8;
}

static void put_in(struct chunk *chunk) {
  uint32_t list = list_of(chunk->size);
  chunk->last = NULL;
  chunk->next = lists[list];
  if (chunk->next != NULL) chunk->next->last = chunk;
  lists[list] = chunk;
  filled[list / 32] |= 1u << list % 32;
}

static void take_out(struct chunk *chunk) {
  uint32_t list = list_of(chunk->size);
  if (chunk->next != NULL) chunk->next->last = chunk->last;
  if (chunk->last != NULL)
    chunk->last->next = chunk->next;
  else
    lists[list] = chunk->next;
  if (lists[list] == NULL) filled[list / 32] &= ~(1u << list % 32);
}

/* A free chunk of at least this size, or NULL: the first of a list in which all are large enough,
   else one of its own list. */
static struct chunk *find(uint32_t size) {
  uint32_t own = list_of(size), list = own < 8 ? own : own + 1;
  for (uint32_t word = list / 32; word < WORDS; word++) {
    uint32_t bits = filled[word] & (word == list / 32 ? ~0u << list % 32 : ~0u);
    if (bits != 0) return lists[32 * word + (uint32_t)__builtin_ctz(bits)];
  }
  struct chunk *chunk = lists[own];
  while (chunk != NULL && chunk->size < size) chunk = chunk->next;
  return chunk;
}

/* ---- chunks ---- */

/* Sets the size of a chunk, and tells the one behind it. */
static void set_size(struct chunk *chunk, uint32_t size, uint32_t use) {
  chunk->size = size | use;
  behind(chunk)->before = size;
}

/* Makes a used chunk free, joined with its free neighbours. */
static void release(struct chunk *chunk) {
  uint32_t size = size_of(chunk);
  struct chunk *other = behind(chunk);
  if (!(other->size & USED)) {
    take_out(other);
    size += other->size;
  }
  other = (struct chunk *)((char *)chunk - chunk->before);
  if (chunk->before != 0 && !(other->size & USED)) {
    take_out(other);
    size += other->size;
    chunk = other;
  }
  set_size(chunk, size, 0);
  put_in(chunk);
}

/* Cuts a used chunk down to the size, and frees what is left. */
static void cut(struct chunk *chunk, uint32_t size) {
  uint32_t left = size_of(chunk) - size;
  if (left == 0) return;
  set_size(chunk, size, USED);
  set_size(behind(chunk), left, USED);
  release(behind(chunk));
}

/* Has the heap grow, so that a free chunk of at least this size, which there isn't yet, ends it. */
static bool grow(uint32_t size) {
  if (end == NULL) {
    char *begin = sbrk(UNIT);
    if (begin == (void *)-1) return false;
    end = (struct chunk *)(begin + HEADER);
    end->before = 0;
    end->size = USED;
  }
  struct chunk *chunk = (struct chunk *)((char *)end - end->before);
  if (end->before != 0 && !(chunk->size & USED)) size -= chunk->size;
  uint32_t more = (size + STEP - 1) / STEP * STEP;
  char *got = sbrk((ptrdiff_t)more);
  if (got == (void *)-1) got = sbrk((ptrdiff_t)(more = size));
  if (got == (void *)-1) return false;
  chunk = end;
  if (got != given_of(end)) {
    /* Somebody else has moved the break: the new chunk has none before it, and may be too small. */
    uint32_t skipped = -(uintptr_t)got % UNIT + HEADER;
    if (more < skipped + 2 * UNIT) return false;
    chunk = (struct chunk *)(got + skipped);
    chunk->before = 0;
    more = (more - skipped - HEADER) / UNIT * UNIT;
  }
  chunk->size = more | USED;
  end = behind(chunk);
  end->before = more;
  end->size = USED;
  release(chunk);
  return true;
}

/* A used chunk for this many bytes, or NULL. */
static struct chunk *take(size_t bytes) {
  if (bytes > MOST) return NULL;
  uint32_t size = (uint32_t)(bytes + HEADER + UNIT - 1) / UNIT * UNIT;
  struct chunk *chunk = find(size);
  if (chunk == NULL && grow(size)) chunk = find(size);
  if (chunk == NULL) return NULL;
  take_out(chunk);
  chunk->size |= USED;
  cut(chunk, size);
  return chunk;
}

/* ---- what the C library has ---- */

/* Gives back the lock, and answers what was given or sets errno. */
static void *answer(void *given) {
  lock_release(&heap_lock);
  if (given == NULL) errno = ENOMEM;
  return given;
}

void *malloc(size_t bytes) {
  lock_take(&heap_lock);
  struct chunk *chunk = take(bytes);
  return answer(chunk != NULL ? given_of(chunk) : NULL);
}

void free(void *given) {
  if (given == NULL) return;
  lock_take(&heap_lock);
  release(chunk_of(given));
  lock_release(&heap_lock);
}

void *calloc(size_t count, size_t size) {
  size_t bytes;
  if (__builtin_mul_overflow(count, size, &bytes)) {
    errno = ENOMEM;
    return NULL;
  }
  void *given = malloc(bytes);
  return given != NULL ? memset(given, 0, bytes) : NULL;
}

size_t malloc_usable_size(void *given) {
  return given != NULL ? size_of(chunk_of(given)) - HEADER : 0;
}

/* Has a used chunk have this many bytes where it is, and answers whether it could. */
static bool resize(struct chunk *chunk, size_t bytes) {
  struct chunk *next = behind(chunk);
  uint32_t size = (uint32_t)(bytes + HEADER + UNIT - 1) / UNIT * UNIT;
  if (bytes > MOST) return false;
  if (size > size_of(chunk)) {
    if ((next->size & USED) || size_of(chunk) + next->size < size) return false;
    take_out(next);
    set_size(chunk, size_of(chunk) + next->size, USED);
  }
  cut(chunk, size);
  return true;
}

void *realloc(void *given, size_t bytes) {
  if (given == NULL) return malloc(bytes);
  lock_take(&heap_lock);
  bool is_done = resize(chunk_of(given), bytes);
  lock_release(&heap_lock);
  if (is_done) return given;
  void *other = malloc(bytes);
  if (other == NULL) return NULL;
  memcpy(other, given, malloc_usable_size(given));
  free(given);
  return other;
}

/* `align` is a power of 2. */
void *memalign(size_t align, size_t bytes) {
  if (align <= UNIT) return malloc(bytes);
  lock_take(&heap_lock);
  if (align > MOST / 2 || bytes > MOST / 2) return answer(NULL);
  struct chunk *chunk = take(bytes + align);
  if (chunk == NULL) return answer(NULL);
  uint32_t skipped = -(uintptr_t)given_of(chunk) % align;
  if (skipped != 0) {
    struct chunk *front = chunk;
    uint32_t size = size_of(front);
    set_size(front, skipped, USED);
    chunk = behind(front);
    set_size(chunk, size - skipped, USED);
    release(front);
  }
  resize(chunk, bytes);
  return answer(given_of(chunk));
}

void *aligned_alloc(size_t align, size_t bytes) {
  return memalign(align, bytes);
}

int posix_memalign(void **given, size_t align, size_t bytes) {
  *given = memalign(align, bytes);
  return *given != NULL ? 0 : ENOMEM;
}
