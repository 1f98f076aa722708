/* The heap of GUARD=1, which finds errors and is slow: each block has pages of its own and ends
   where they end, the page behind it isn't mapped, and what is freed is unmapped. So a use behind a
   block's end, a use of what was freed and a second free end with status 139 at the place.

   A block whose size is no multiple of 4 ends up to 3 bytes before its page does; these bytes are
   looked at when it is freed, which faults where they were written. A block is aligned as what
   fills it whole must be: to 16, 8 or 4 bytes, whichever first divides its size. No load or store
   here is wider than 4. */
#include <errno.h>
#include <malloc.h>
#include <stdbool.h>
#include <stdint.h>
#include <stdlib.h>
#include <string.h>
#include <unistd.h>

#include "../calls.h"
#include "../lock.h"

enum { PAGE = 4096, READ_AND_WRITE = 6, MARK = 0x600dB10c, FILLING = 0xA5 };

/* Blocks lie above the first thread's stack and below the kernel's: see guest.ld. */
#define FIRST 0x70001000u
#define END 0xEFFE0000u

/* Stands right before a block. */
struct head {
  uint32_t mark;
  uint32_t first, pages; /* of the block and its head */
  uint32_t bytes;        /* that were asked for */
};

static struct __lock heap_lock;
static uint32_t place = FIRST; /* where to look for room next: behind the block made last */

/* Maps so many pages between two that aren't mapped, and answers their address, or 0. Addresses are
   used again only when all others were. */
static uint32_t map_apart(uint32_t pages) {
  uint32_t looked = 0, most = (END - FIRST) / PAGE;
  if (pages > most - 2) return 0;
  for (; looked < most; looked++) {
    if (pages + 2 > (END - place) / PAGE) place = FIRST;
    int32_t answer = call(CALL_MAP, place, pages + 2, READ_AND_WRITE);
    if (answer == 0) {
      uint32_t first = place + PAGE;
      place = first + pages * PAGE;
      call(CALL_UNMAP, first - PAGE, 1, 0);
      call(CALL_UNMAP, place, 1, 0);
      return first;
    }
    if (answer != -EINVAL) return 0; /* no frames */
    place += PAGE;
  }
  return 0;
}

static struct head *head_of(void *given) {
  return (struct head *)given - 1;
}

static uint32_t end_of(const struct head *head) {
  return head->first + head->pages * PAGE;
}

void *memalign(size_t align, size_t bytes) {
  if (align < 4) align = 4;
  if (bytes > END - FIRST || align > END - FIRST) {
    errno = ENOMEM;
    return NULL;
  }
  uint32_t pages = (uint32_t)(sizeof(struct head) + bytes + align - 1 + PAGE - 1) / PAGE;
  lock_take(&heap_lock);
  uint32_t first = map_apart(pages);
  lock_release(&heap_lock);
  if (first == 0) {
    errno = ENOMEM;
    return NULL;
  }
  uint32_t end = first + pages * PAGE;
  uint32_t given = (end - bytes) & -align;
  *head_of((void *)given) =
      (struct head){.mark = MARK, .first = first, .pages = pages, .bytes = bytes};
  memset((void *)(given + bytes), FILLING, end - (given + bytes));
  return (void *)given;
}

void *malloc(size_t bytes) {
  size_t align = bytes % 16 == 0 ? 16 : bytes % 8 == 0 ? 8 : 4;
  return memalign(align, bytes);
}

/* Ends the process with status 139. */
static void fault(uint32_t address) {
  *(volatile char *)address = 0;
}

/* The head of a block that was freed isn't there any more. */
void free(void *given) {
  if (given == NULL) return;
  struct head *head = head_of(given);
  uint32_t end = end_of(head);
  if (head->mark != MARK) fault(0);
  for (char *byte = (char *)given + head->bytes; byte < (char *)end; byte++)
    if (*byte != (char)FILLING) fault(end);
  call(CALL_UNMAP, head->first, head->pages, 0);
}

void *calloc(size_t count, size_t size) {
  size_t bytes;
  if (__builtin_mul_overflow(count, size, &bytes)) {
    errno = ENOMEM;
    return NULL;
  }
  /* The kernel's pages are zeros, and only what is behind the block was filled. */
  return malloc(bytes);
}

size_t malloc_usable_size(void *given) {
  return given != NULL ? head_of(given)->bytes : 0;
}

/* The block always moves. */
void *realloc(void *given, size_t bytes) {
  void *other = malloc(bytes);
  if (other == NULL || given == NULL) return other;
  size_t kept = malloc_usable_size(given);
  memcpy(other, given, kept < bytes ? kept : bytes);
  free(given);
  return other;
}

void *aligned_alloc(size_t align, size_t bytes) {
  return memalign(align, bytes);
}

int posix_memalign(void **given, size_t align, size_t bytes) {
  *given = memalign(align, bytes);
  return *given != NULL ? 0 : ENOMEM;
}
