/* The services of the kernel, one inline function each. A service is an ecall: its number is in a7, its arguments are
   in a0 to a2, and its answer comes in a0; three services have a second answer, in a1. A refusal answers minus an error
   number and does nothing else. Each service costs one of the thread's quantum, as an instruction does, and ends the
   thread's parallel part: it is served in the round's serial phase. Any other number answers NO_SERVICE. */
#ifndef SERVICES_H
#define SERVICES_H

#include <stdint.h>

/* The descriptors that each process has open at the start. */
enum descriptor { INPUT = 0, OUTPUT = 1, ERROR = 2 };

/* What a refusal answers. */
enum refusal {
  NO_PROCESS = -3,       /* no such process lives */
  INTERRUPTED = -4,      /* a handler began while the thread waited */
  BAD_DESCRIPTOR = -9,   /* the descriptor isn't open for this */
  NO_CHILD = -10,        /* the process has no such child */
  TOO_MANY = -11,        /* no further thread or process can be made */
  OTHER_VALUE = -11,     /* futex_wait: the word holds another value */
  NO_FRAMES = -12,       /* too few frames are free */
  BAD_ADDRESS = -14,     /* a byte lies in no page, or in one that may not be used so */
  BAD_ARGUMENT = -22,    /* an argument is out of its range */
  NO_DESCRIPTORS = -24,  /* no descriptor is free, or no pipe */
  NO_READER = -32,       /* nobody can read the pipe any more */
  NO_SERVICE = -38       /* no service has this number */
};

/* The most bytes that one dos_read or dos_write takes, and that a pipe holds. */
enum { READ_LIMIT = 4096, WRITE_LIMIT = 4096, PIPE_SIZE = 4096 };

/* The rights of dos_map, to be added. Every page can be read, whichever of them it has. */
enum { MAY_EXECUTE = 1, MAY_WRITE = 2, MAY_READ = 4 };

/* What a signal does that no handler is set for. The default ends the process with status 128 plus the signal; that of
   SIGNAL_CHILD does nothing. */
enum { DEFAULT_ACTION = 0, IGNORE_ACTION = 1 };

/* Some of the signals 1 to 31, numbered as Linux numbers them. The kernel itself posts SIGNAL_CHILD alone, to the
   parent of a process that ends. SIGNAL_KILL can't be caught, masked or ignored. */
enum signal { SIGNAL_KILL = 9, SIGNAL_USER = 10, SIGNAL_TERMINATE = 15, SIGNAL_CHILD = 17 };

/* A signal as a mask of dos_sig_mask has it. */
#define MASK_OF(signal) (1u << (signal))

/* Calls the service `number`. All registers but a0 stay, and memory may be read. */
static inline int32_t dos_service(uint32_t number, uint32_t first, uint32_t second, uint32_t third) {
  register uint32_t a0 __asm__("a0") = first;
  register uint32_t a1 __asm__("a1") = second;
  register uint32_t a2 __asm__("a2") = third;
  register uint32_t a7 __asm__("a7") = number;
  __asm__ volatile("ecall" : "+r"(a0) : "r"(a1), "r"(a2), "r"(a7) : "memory");
  return (int32_t)a0;
}

/* The same for a service with two answers; the second is put where `other` points. */
static inline int32_t dos_service_of_two(uint32_t number, uint32_t first, uint32_t *other) {
  register uint32_t a0 __asm__("a0") = first;
  register uint32_t a1 __asm__("a1") = 0;
  register uint32_t a7 __asm__("a7") = number;
  __asm__ volatile("ecall" : "+r"(a0), "+r"(a1) : "r"(a7) : "memory");
  *other = a1;
  return (int32_t)a0;
}

/* 1: Ends the calling thread. The last thread of a process ends it with status 0. */
static inline _Noreturn void dos_thread_exit(void) {
  dos_service(1, 0, 0, 0);
  __builtin_unreachable();
}

/* 2: Ends the process with all its threads. Its status is `status` modulo 256. */
static inline _Noreturn void dos_process_exit(int32_t status) {
  dos_service(2, (uint32_t)status, 0, 0);
  __builtin_unreachable();
}

/* 3: Makes a thread of this process, which runs from the next round on with pc `entry`, sp `stack`, a0 `argument` and
   all other registers 0, gp and tp among them. Answers its number, BAD_ARGUMENT where `entry` isn't a multiple of 4, or
   TOO_MANY where 64 threads live or the number 65535 was given. For a function in C use thread_start, which sets gp. */
static inline int32_t dos_thread_new(uint32_t entry, uint32_t stack, uint32_t argument) {
  return dos_service(3, entry, stack, argument);
}

/* 4: Makes a process that is a copy of this one with the calling thread alone: the same registers, actions, descriptors
   and memory. Private pages are copied, shared ones are the same. Answers the child's number, and 0 in the child; or
   TOO_MANY where 32 processes or 64 threads live or thread number 65535 was given, or NO_FRAMES where there are fewer
   free frames than this process has private pages. The child's one thread is new, and starts in the next round. */
static inline int32_t dos_fork(void) {
  return dos_service(4, 0, 0, 0);
}

/* 5: Waits until the child `process` has ended, or any child where that is 0; of several that have ended the lowest is
   taken. It is collected: it is no child any more. Answers its number and puts its status where `status` points; or
   NO_CHILD, or INTERRUPTED. */
static inline int32_t dos_wait(int32_t process, int32_t *status) {
  return dos_service_of_two(5, (uint32_t)process, (uint32_t *)status);
}

/* 6: Opens a pipe, which holds PIPE_SIZE bytes. Answers the descriptor that reads it and puts the one that writes it
   where `writing` points: the two lowest that are free. Or answers NO_DESCRIPTORS where there aren't two, or 64 pipes
   are open. */
static inline int32_t dos_pipe(int32_t *writing) {
  return dos_service_of_two(6, 0, (uint32_t *)writing);
}

/* 7: Reads at most `length` bytes, and at most READ_LIMIT, of the input or a pipe. Answers how many came: 0 at the end
   of the input, and from an empty pipe that no descriptor writes any more; from an empty pipe that one does write it
   waits. Or answers BAD_DESCRIPTOR, BAD_ADDRESS where one of the `length` bytes isn't in a page with W, or INTERRUPTED.
   */
static inline int32_t dos_read(uint32_t descriptor, void *bytes, uint32_t length) {
  return dos_service(7, descriptor, (uint32_t)(uintptr_t)bytes, length);
}

/* 8: Writes `length` bytes, but at most WRITE_LIMIT of them, to the output, error or a pipe. Answers how many were
   written: to a pipe as many as it has room for, and where it is full this waits. Or answers BAD_DESCRIPTOR,
   BAD_ADDRESS where one of these bytes isn't in a mapped page, NO_READER where no descriptor reads the pipe, or
   INTERRUPTED. */
static inline int32_t dos_write(uint32_t descriptor, const void *bytes, uint32_t length) {
  return dos_service(8, descriptor, (uint32_t)(uintptr_t)bytes, length);
}

/* 9: Closes the descriptor. Answers 0 or BAD_DESCRIPTOR. */
static inline int32_t dos_close(uint32_t descriptor) {
  return dos_service(9, descriptor, 0, 0);
}

/* 10: Makes the lowest free descriptor name what this one names, and answers it; or BAD_DESCRIPTOR or NO_DESCRIPTORS.
   */
static inline int32_t dos_dup(uint32_t descriptor) {
  return dos_service(10, descriptor, 0, 0);
}

/* 11: Sleeps where the word holds `value`, until dos_futex_wake wakes this thread: then it answers 0. Or answers
   OTHER_VALUE at once, BAD_ARGUMENT where the word isn't aligned, BAD_ADDRESS, or INTERRUPTED. Sleepers of a word stand
   in the order in which they came. */
static inline int32_t dos_futex_wait(const volatile uint32_t *word, uint32_t value) {
  return dos_service(11, (uint32_t)(uintptr_t)word, value, 0);
}

/* 12: Wakes the first `count` of those who sleep on the word; they go on in the next round. Answers how many they were,
   BAD_ARGUMENT or BAD_ADDRESS. */
static inline int32_t dos_futex_wake(const volatile uint32_t *word, uint32_t count) {
  return dos_service(12, (uint32_t)(uintptr_t)word, count, 0);
}

/* 13: Maps `pages` private pages of zeros from `address` on, with these rights. Answers 0; BAD_ARGUMENT where the
   address isn't a multiple of 4096, pages is 0, the range isn't within 0x1000 to 0xEFFFFFFF, the rights are over 7 or
   one of the pages is mapped already; or NO_FRAMES. */
static inline int32_t dos_map(uint32_t address, uint32_t pages, uint32_t rights) {
  return dos_service(13, address, pages, rights);
}

/* 14: Unmaps the pages. A frame that no process maps any more is free again. Answers 0, or BAD_ARGUMENT where they are
   no range as in dos_map, or one of them isn't mapped. */
static inline int32_t dos_unmap(uint32_t address, uint32_t pages) {
  return dos_service(14, address, pages, 0);
}

/* 15: Makes the pages shared: processes that are forked from now on have them in common with this one. Answers as
   dos_unmap. */
static inline int32_t dos_share(uint32_t address, uint32_t pages) {
  return dos_service(15, address, pages, 0);
}

/* 16: Sets what the signal does in this process: DEFAULT_ACTION, IGNORE_ACTION, or a handler that begins with the
   signal in a0 and ends with dos_sig_return. Answers the former action, or BAD_ARGUMENT where the signal isn't 1 to 31
   or is SIGNAL_KILL, or the action isn't one. For a function in C use catch_signal. */
static inline int32_t dos_sig_handler(uint32_t signal, uint32_t action) {
  return dos_service(16, signal, action, 0);
}

/* 17: Sets the calling thread's mask: the signals that stay pending at it. SIGNAL_KILL can't be one. Answers the former
   mask. */
static inline uint32_t dos_sig_mask(uint32_t mask) {
  return (uint32_t)dos_service(17, mask, 0, 0);
}

/* 18: Ends a handler: all registers and the mask are again as they were when it began. Called from anywhere else it
   never comes back: the thread is refused again and again. */
static inline _Noreturn void dos_sig_return(void) {
  dos_service(18, 0, 0, 0);
  __builtin_unreachable();
}

/* 19: Posts the signal to the process, for its thread of the lowest number; 0 only asks whether the process lives. It
   comes at the next round's start at the earliest. Answers 0, BAD_ARGUMENT where the signal is over 31, or NO_PROCESS.
   */
static inline int32_t dos_kill(int32_t process, uint32_t signal) {
  return dos_service(19, (uint32_t)process, signal, 0);
}

/* 20: Answers the number of the process: 1 for the first image, 2 for the second. Those of forks follow. */
static inline int32_t dos_get_pid(void) {
  return dos_service(20, 0, 0, 0);
}

/* 21: Answers the number of the thread. Numbers are counted over all processes and never given twice. */
static inline int32_t dos_get_tid(void) {
  return dos_service(21, 0, 0, 0);
}

/* 22: Answers what the clock reads; what it counts is the outside's affair. */
static inline uint64_t dos_clock(void) {
  uint32_t high;
  uint32_t low = (uint32_t)dos_service_of_two(22, 0, &high);
  return (uint64_t)high << 32 | low;
}

/* 23: Ends the thread's part in this round; it goes on in the next one. */
static inline void dos_yield(void) {
  dos_service(23, 0, 0, 0);
}

/* 24: Answers the number of the round that is being run, counted from 1. */
static inline int32_t dos_round(void) {
  return dos_service(24, 0, 0, 0);
}

#endif
