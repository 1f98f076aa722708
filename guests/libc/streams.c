/* The standard streams. What they hold is written at the end of each line, when a buffer is full,
   when it is flushed and at the end; with BUFFER=full the lines of the output aren't looked at. */
#include <stdarg.h>
#include <stdio.h>
#include <stdio-bufio.h>
#include <unistd.h>

#include "lock.h"

/* One write takes 4096 bytes at most. */
static char input_buffer[512], output_buffer[4096], error_buffer[256];
static struct __lock locks[3];

/* What fclose does to a standard stream. picolibc's own way would free it, though it wasn't
   malloc that gave it. */
static int close_standard(FILE *stream) {
  int is_flushed = fflush(stream) == 0;
  stream->flags &= (uint8_t) ~(__SRD | __SWR);
  return close(((struct __file_bufio *)stream)->fd) == 0 && is_flushed ? 0 : EOF;
}

#define STREAM(descriptor, buffer, direction, flags)                                               \
  {                                                                                                \
    .xfile = FDEV_SETUP_EXT(__bufio_put, __bufio_get, __bufio_flush, close_standard, __bufio_seek, \
                            __bufio_setvbuf, (direction) | __SBUF),                                \
    .fd = descriptor, .bflags = flags, .buf = buffer, .size = sizeof(buffer), .read = read,        \
    .write = write, .lseek = lseek, .close = close, .lock = &locks[descriptor],                    \
  }

static struct __file_bufio input = STREAM(STDIN_FILENO, input_buffer, __SRD, 0);
static struct __file_bufio output = STREAM(STDOUT_FILENO, output_buffer, __SWR, __BLBF);
static struct __file_bufio error = STREAM(STDERR_FILENO, error_buffer, __SWR, __BLBF);

FILE *const stdin = &input.xfile.cfile.file;
FILE *const stdout = &output.xfile.cfile.file;
FILE *const stderr = &error.xfile.cfile.file;

/* 1 where the program was linked with BUFFER=full, else 0, which the compiler takes for the address
   of a weak symbol alone. */
extern char __full_buffer[] __attribute__((weak));

/* Priorities up to 100 are for the C library, which this is: before all the program's constructors,
   and behind all its destructors. */
#pragma GCC diagnostic ignored "-Wprio-ctor-dtor"
__attribute__((constructor(100))) static void choose_buffer(void) {
  if (__full_buffer != NULL) output.bflags &= (uint8_t)~__BLBF;
}

__attribute__((destructor(100))) static void flush_streams(void) {
  fflush(stdout);
  fflush(stderr);
}

/* ---- calls that nothing of another thread comes between (ISO/IEC 9899:2011, 7.21.2) ---- */

/* picolibc 1.8 takes a stream's lock for each byte. Here it is taken for the whole call: the linker
   has the calls of these functions come here first (--wrap). */
extern int __real_vfprintf(FILE *stream, const char *format, va_list arguments);
extern int __real_fputs(const char *text, FILE *stream);
extern int __real_puts(const char *text);
extern size_t __real_fwrite(const void *bytes, size_t size, size_t count, FILE *stream);

/* The stream's lock; none where it stands for a string, as in snprintf. */
static struct __lock *lock_of(FILE *stream) {
  return stream->flags & __SBUF ? ((struct __file_bufio *)stream)->lock : NULL;
}

int __wrap_vfprintf(FILE *stream, const char *format, va_list arguments) {
  __retarget_lock_acquire_recursive(lock_of(stream));
  int answer = __real_vfprintf(stream, format, arguments);
  __retarget_lock_release_recursive(lock_of(stream));
  return answer;
}

int __wrap_fputs(const char *text, FILE *stream) {
  __retarget_lock_acquire_recursive(lock_of(stream));
  int answer = __real_fputs(text, stream);
  __retarget_lock_release_recursive(lock_of(stream));
  return answer;
}

int __wrap_puts(const char *text) {
  __retarget_lock_acquire_recursive(lock_of(stdout));
  int answer = __real_puts(text);
  __retarget_lock_release_recursive(lock_of(stdout));
  return answer;
}

size_t __wrap_fwrite(const void *bytes, size_t size, size_t count, FILE *stream) {
  __retarget_lock_acquire_recursive(lock_of(stream));
  size_t answer = __real_fwrite(bytes, size, count, stream);
  __retarget_lock_release_recursive(lock_of(stream));
  return answer;
}

/* In place of picolibc 1.8's, which drops a last line that doesn't end in a newline. */
char *__wrap_fgets(char *line, int size, FILE *stream) {
  int length = 0, byte = 0;
  __retarget_lock_acquire_recursive(lock_of(stream));
  while (length < size - 1 && byte != '\n' && (byte = getc(stream)) != EOF)
    line[length++] = (char)byte;
  __retarget_lock_release_recursive(lock_of(stream));
  if (byte == EOF && (length == 0 || ferror(stream))) return NULL;
  line[length] = '\0';
  return line;
}
