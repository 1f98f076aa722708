#include "runtime.h"

#include <stdarg.h>

/* ---- what the compiler calls by itself ---- */

void *memset(void *to, int byte, size_t length) {
  unsigned char *bytes = to;
  for (size_t i = 0; i < length; i++) bytes[i] = (unsigned char)byte;
  return to;
}

void *memcpy(void *restrict to, const void *restrict from, size_t length) {
  unsigned char *bytes = to;
  const unsigned char *source = from;
  for (size_t i = 0; i < length; i++) bytes[i] = source[i];
  return to;
}

void *memmove(void *to, const void *from, size_t length) {
  unsigned char *bytes = to;
  const unsigned char *source = from;
  if (bytes <= source) return memcpy(to, from, length);
  for (size_t i = length; i > 0; i--) bytes[i - 1] = source[i - 1];
  return to;
}

int memcmp(const void *left, const void *right, size_t length) {
  const unsigned char *a = left, *b = right;
  for (size_t i = 0; i < length; i++)
    if (a[i] != b[i]) return a[i] < b[i] ? -1 : 1;
  return 0;
}

/* ---- text ---- */

/* Writes all the bytes, or as many as come before the first refusal. */
static void print_bytes(const char *bytes, uint32_t length) {
  while (length > 0) {
    int32_t written = dos_write(OUTPUT, bytes, length);
    if (written <= 0) return;
    bytes += written;
    length -= (uint32_t)written;
  }
}

void print(const char *text) {
  uint32_t length = 0;
  while (text[length] != 0) length++;
  print_bytes(text, length);
}

void print_decimal(int32_t number) {
  char digits[11]; /* a sign and ten digits */
  uint32_t rest = number < 0 ? -(uint32_t)number : (uint32_t)number;
  uint32_t first = sizeof digits;
  do {
    digits[--first] = (char)('0' + rest % 10);
    rest /= 10;
  } while (rest > 0);
  if (number < 0) digits[--first] = '-';
  print_bytes(digits + first, sizeof digits - first);
}

void print_hexadecimal(uint32_t number) {
  char digits[10] = {'0', 'x'};
  for (uint32_t i = 0; i < 8; i++) digits[2 + i] = "0123456789abcdef"[number >> (28 - 4 * i) & 15];
  print_bytes(digits, sizeof digits);
}

/* Puts the digits of the number into the line, and answers where they end. */
static char *put_number(char *end, uint32_t number, uint32_t base, uint32_t least) {
  char digits[10];
  uint32_t count = 0;
  do {
    digits[count++] = "0123456789abcdef"[number % base];
    number /= base;
  } while (number > 0 || count < least);
  while (count > 0) *end++ = digits[--count];
  return end;
}

/* Puts what stands behind a % into the line, and answers where it ends. */
static char *put_argument(char *end, char kind, va_list *arguments) {
  if (kind == 's') {
    for (const char *text = va_arg(*arguments, const char *); *text != 0; text++) *end++ = *text;
    return end;
  }
  if (kind != 'd' && kind != 'x') {
    *end++ = kind;
    return end;
  }
  uint32_t number = va_arg(*arguments, uint32_t);
  if (kind == 'x') {
    *end++ = '0';
    *end++ = 'x';
    return put_number(end, number, 16, 8);
  }
  if ((int32_t)number < 0) *end++ = '-';
  return put_number(end, (int32_t)number < 0 ? -number : number, 10, 1);
}

void print_line(const char *format, ...) {
  char line[256], *end = line;
  va_list arguments;
  va_start(arguments, format);
  for (; *format != 0; format++)
    if (*format == '%') end = put_argument(end, *++format, &arguments);
    else *end++ = *format;
  va_end(arguments);
  print_bytes(line, (uint32_t)(end - line));
}

/* ---- locks ---- */

void lock_take(struct lock *lock) {
  while (!compare_exchange(&lock->is_held, 0, 1)) dos_yield();
}

void lock_release(struct lock *lock) {
  __atomic_store_n(&lock->is_held, 0, __ATOMIC_RELEASE);
}

/* ---- threads ---- */

enum { FREE, TAKEN, ENDED };

/* A place in the pool: what its thread is to do, and how far it is. */
struct place {
  void (*run)(uintptr_t argument);
  uintptr_t argument;
  volatile uint32_t state;
};

/* The pool fills a page of its own. Who waits looks there in each round and takes the page from whoever writes to it,
   so nothing else may stand on it. */
static union {
  struct place places[POOL_THREADS];
  unsigned char page[PAGE_SIZE];
} pool ON_A_PAGE;

static unsigned char stacks[POOL_THREADS][POOL_STACK] ON_A_PAGE;

_Static_assert(sizeof pool == PAGE_SIZE, "the pool is one page");
_Static_assert(POOL_STACK % PAGE_SIZE == 0, "a stack is whole pages");

/* In start.S: sets gp and goes on with thread_body. */
extern void thread_entry(void);

/* What each thread of the pool does. Once its place has ENDED, another thread may be given its stack, so from that
   store on it uses none. */
_Noreturn void thread_body(struct place *place) {
  place->run(place->argument);
  register uint32_t exit __asm__("a7") = 1;
  __asm__ volatile("sw %1, %0\n\tecall" : "=m"(place->state) : "r"(ENDED), "r"(exit) : "memory");
  __builtin_unreachable();
}

int32_t thread_start(void (*run)(uintptr_t argument), uintptr_t argument) {
  for (int32_t i = 0; i < POOL_THREADS; i++) {
    struct place *place = &pool.places[i];
    if (!compare_exchange(&place->state, FREE, TAKEN)) continue;
    place->run = run;
    place->argument = argument;
    uintptr_t stack = (uintptr_t)&stacks[i] + POOL_STACK;
    if (dos_thread_new((uintptr_t)thread_entry, stack, (uintptr_t)place) > 0) return i;
    place->state = FREE;
    return TOO_MANY;
  }
  return TOO_MANY;
}

void thread_join(int32_t place) {
  while (pool.places[place].state != ENDED) dos_yield();
  pool.places[place].state = FREE;
}

bool run_threads(uint32_t count, void (*run)(uintptr_t number)) {
  int32_t places[POOL_THREADS];
  uint32_t started = 0;
  while (started < count && started < POOL_THREADS) {
    places[started] = thread_start(run, started);
    if (places[started] < 0) break;
    started++;
  }
  for (uint32_t i = 0; i < started; i++) thread_join(places[i]);
  return started == count;
}

/* ---- processes and signals ---- */

int32_t wait_for(int32_t process, int32_t *status) {
  int32_t answer;
  do answer = dos_wait(process, status);
  while (answer == INTERRUPTED);
  return answer;
}

int32_t read_all(uint32_t descriptor, void *bytes, uint32_t length) {
  uint32_t done = 0;
  while (done < length) {
    int32_t answer = dos_read(descriptor, (char *)bytes + done, length - done);
    if (answer == INTERRUPTED) continue;
    if (answer < 0) return answer;
    if (answer == 0) break;
    done += (uint32_t)answer;
  }
  return (int32_t)done;
}

int32_t write_all(uint32_t descriptor, const void *bytes, uint32_t length) {
  uint32_t done = 0;
  while (done < length) {
    int32_t answer = dos_write(descriptor, (const char *)bytes + done, length - done);
    if (answer == INTERRUPTED) continue;
    if (answer < 0) return answer;
    done += (uint32_t)answer;
  }
  return (int32_t)done;
}

/* What signal_entry calls, by the signal. */
void (*signal_handlers[32])(uint32_t signal);

/* In start.S: calls the handler of the signal in a0, and then dos_sig_return. */
extern void signal_entry(void);

int32_t catch_signal(uint32_t signal, void (*handler)(uint32_t signal)) {
  if (signal > 31) return BAD_ARGUMENT;
  signal_handlers[signal] = handler;
  return dos_sig_handler(signal, (uint32_t)(uintptr_t)signal_entry);
}
