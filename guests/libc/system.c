/* What a C library asks of a system, of which the kernel's services do what they can: a start, an
   end, a heap and descriptors. Where a service isn't there it answers -38, and here that becomes -1
   with errno ENOSYS. */
#include <errno.h>
#include <stdbool.h>
#include <stddef.h>
#include <stdlib.h>
#include <string.h>
#include <sys/stat.h>
#include <unistd.h>

#include "calls.h"

/* ---- start and end ---- */

extern char __tls_data[], __tls_data_size[], __tls_size[], __first_tls[];

void fill_tls(void *block) {
  size_t given = (size_t)__tls_data_size;
  memcpy(block, __tls_data, given);
  memset((char *)block + given, 0, (size_t)__tls_size - given);
}

/* What main is told, with NULL behind it: the kernel gives no arguments, so dos-cc links the words
   in. The environment is empty. */
extern char *program_arguments[];
static char *environment[] = {NULL};

typedef void (*initializer)(void);
extern initializer __preinit_array_start[], __preinit_array_end[], __init_array_start[],
    __init_array_end[];
extern int main(int count, char **arguments, char **environment);

/* What the first thread does: start.S has set gp, tp and sp. exit calls what atexit was told, the
   destructors and last flush_streams. */
_Noreturn void process_body(void) {
  fill_tls(__first_tls);
  find_server();
  for (initializer *step = __preinit_array_start; step < __preinit_array_end; step++) (*step)();
  for (initializer *step = __init_array_start; step < __init_array_end; step++) (*step)();
  int count = 0;
  while (program_arguments[count] != NULL) count++;
  exit(main(count, program_arguments, environment));
}

/* Ends the process at once, with all its threads. What streams still hold isn't written, as POSIX
   has it. */
_Noreturn void _exit(int status) {
  call(CALL_PROCESS_EXIT, (uint32_t)status, 0, 0);
  __builtin_unreachable();
}

/* The kernel's error numbers are Linux's. Those of the calls below are the same in this library's
   errno.h, but for 38. */
int32_t or_errno(int32_t answer) {
  if (answer >= 0) return answer;
  errno = answer == NO_CALL ? ENOSYS : -answer;
  return -1;
}

/* ---- the heap ---- */

enum { PAGE = 4096, READ_AND_WRITE = 6 };

extern char __heap_start[], __heap_end[];

/* The heap of the image comes first; behind its end, pages that the kernel maps. */
void *sbrk(ptrdiff_t change) {
  static char *top = __heap_start, *end = __heap_end;
  if (change < __heap_start - top) {
    errno = EINVAL;
    return (void *)-1;
  }
  if (change > end - top) {
    uint32_t pages = (uint32_t)(change - (end - top) + PAGE - 1) / PAGE;
    if (call(CALL_MAP, (uint32_t)end, pages, READ_AND_WRITE) != 0) {
      errno = ENOMEM;
      return (void *)-1;
    }
    end += pages * PAGE;
  }
  top += change;
  return top - change;
}

/* ---- descriptors ---- */

/* Which of the three standard descriptors were closed where nobody serves that call. */
static bool is_closed[3];

static bool is_closed_here(int descriptor) {
  if (descriptor < 0 || descriptor > 2 || !is_closed[descriptor]) return false;
  errno = EBADF;
  return true;
}

ssize_t write(int descriptor, const void *bytes, size_t length) {
  if (is_closed_here(descriptor)) return -1;
  return or_errno(call(CALL_WRITE, (uint32_t)descriptor, (uint32_t)bytes, length));
}

/* Its length, then its bytes: see start.S and libc/attach. */
extern const struct {
  uint32_t length;
  char bytes[];
} attached_input;

/* Where an input was attached to the file, that is what descriptor 0 reads, to its end. */
ssize_t read(int descriptor, void *buffer, size_t length) {
  static uint32_t done;
  if (is_closed_here(descriptor)) return -1;
  if (descriptor != STDIN_FILENO || attached_input.length == 0)
    return or_errno(call(CALL_READ, (uint32_t)descriptor, (uint32_t)buffer, length));
  uint32_t left = attached_input.length - done;
  uint32_t given = length < left ? length : left;
  memcpy(buffer, attached_input.bytes + done, given);
  done += given;
  return (ssize_t)given;
}

int close(int descriptor) {
  if (is_closed_here(descriptor)) return -1;
  int32_t answer = call(CALL_CLOSE, (uint32_t)descriptor, 0, 0);
  if (answer != NO_CALL || descriptor < 0 || descriptor > 2) return or_errno(answer);
  is_closed[descriptor] = true;
  return 0;
}

int dup(int descriptor) {
  return or_errno(call(CALL_DUP, (uint32_t)descriptor, 0, 0));
}

int pipe(int ends[2]) {
  struct answer answer = call_for_two(CALL_PIPE, 0, 0, 0);
  if (answer.first < 0) return or_errno(answer.first);
  ends[0] = answer.first;
  ends[1] = (int)answer.second;
  return 0;
}

off_t lseek(int descriptor, off_t offset, int whence) {
  (void)descriptor, (void)offset, (void)whence;
  errno = ESPIPE;
  return -1;
}

/* No descriptor is a terminal. */
int isatty(int descriptor) {
  (void)descriptor;
  errno = ENOTTY;
  return 0;
}

int fstat(int descriptor, struct stat *told) {
  if (descriptor < STDIN_FILENO || descriptor > STDERR_FILENO) {
    errno = EBADF;
    return -1;
  }
  memset(told, 0, sizeof *told);
  told->st_mode = S_IFCHR | S_IRUSR | S_IWUSR;
  return 0;
}
