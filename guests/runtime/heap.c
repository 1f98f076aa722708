/* malloc and free over dos_map and dos_unmap. A block of more than SMALL bytes has pages of its own. Smaller ones are
   cut from single pages, each page into blocks of one size: a power of two, 16 bytes to SMALL. A page of either kind
   begins with its head; where its last block comes back it is unmapped. */
#include "runtime.h"

enum { SMALL = 1024, CLASSES = 7, HEAP_FIRST = 0x40000000 };
#define HEAP_END 0xE0000000u

/* A block that is free. */
struct block {
  struct block *next;
};

/* The head of a page that is cut: its blocks that are free, how many aren't, and the pages of its size that have one
   free. Of pages that are one block: how many they are, in `pages`; else that is 0. */
struct head {
  struct block *free;
  uint16_t used, class;
  uint32_t pages;
  struct head *next, **link; /* link points to what points to this head */
  uint32_t unused[3];        /* so that blocks begin at a multiple of 16 */
};

_Static_assert(sizeof(struct head) % 16 == 0, "blocks are aligned");

static struct {
  struct mutex mutex;
  struct head *open[CLASSES]; /* the pages with a free block, by size */
  uint32_t place;             /* where to look for room next */
} heap;

/* Maps so many pages at the first place that has room for them, behind those that were mapped last. */
static struct head *new_pages(uint32_t pages) {
  uint32_t looked = 0;
  while (looked < (HEAP_END - HEAP_FIRST) / PAGE_SIZE) {
    if (heap.place < HEAP_FIRST || pages > (HEAP_END - heap.place) / PAGE_SIZE) heap.place = HEAP_FIRST;
    uint32_t place = heap.place;
    int32_t answer = dos_map(place, pages, MAY_READ | MAY_WRITE);
    if (answer == 0) {
      heap.place = place + pages * PAGE_SIZE;
      return (struct head *)place;
    }
    if (answer != BAD_ARGUMENT) return NULL; /* no frames */
    heap.place = place + PAGE_SIZE;
    looked++;
  }
  return NULL;
}

static void open_page(struct head *head) {
  struct head **first = &heap.open[head->class];
  head->next = *first;
  head->link = first;
  if (head->next != NULL) head->next->link = &head->next;
  *first = head;
}

static void shut_page(struct head *head) {
  *head->link = head->next;
  if (head->next != NULL) head->next->link = head->link;
}

static struct head *cut_page(uint32_t class) {
  struct head *head = new_pages(1);
  if (head == NULL) return NULL;
  uint32_t size = 16u << class;
  head->class = (uint16_t)class;
  for (uint32_t at = sizeof *head; at + size <= PAGE_SIZE; at += size) {
    struct block *block = (struct block *)((uintptr_t)head + at);
    block->next = head->free;
    head->free = block;
  }
  open_page(head);
  return head;
}

static void *take_block(uint32_t class) {
  struct head *head = heap.open[class];
  if (head == NULL) head = cut_page(class);
  if (head == NULL) return NULL;
  struct block *block = head->free;
  head->free = block->next;
  head->used++;
  if (head->free == NULL) shut_page(head);
  return block;
}

static void *take_pages(size_t length) {
  uint32_t pages = (uint32_t)((length + sizeof(struct head) - 1) / PAGE_SIZE) + 1;
  struct head *head = new_pages(pages);
  if (head == NULL) return NULL;
  head->pages = pages;
  return head + 1;
}

void *malloc(size_t length) {
  if (length > HEAP_END - HEAP_FIRST) return NULL;
  uint32_t class = 0;
  while (class < CLASSES && length > 16u << class) class++;
  mutex_lock(&heap.mutex);
  void *block = class < CLASSES ? take_block(class) : take_pages(length);
  mutex_unlock(&heap.mutex);
  return block;
}

static void give_block(struct head *head, struct block *block) {
  if (head->free == NULL) open_page(head);
  block->next = head->free;
  head->free = block;
  head->used--;
  if (head->used > 0) return;
  shut_page(head);
  dos_unmap((uint32_t)head, 1);
}

void free(void *block) {
  if (block == NULL) return;
  struct head *head = (struct head *)((uintptr_t)block & -(uintptr_t)PAGE_SIZE);
  mutex_lock(&heap.mutex);
  if (head->pages > 0) dos_unmap((uint32_t)head, head->pages);
  else give_block(head, block);
  mutex_unlock(&heap.mutex);
}
