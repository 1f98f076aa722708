/* Processes: fork, wait and kill. There is nothing to exec. */
#include <errno.h>
#include <signal.h>
#include <stddef.h>
#include <sys/wait.h>
#include <unistd.h>

#include "calls.h"
#include "thread.h"

pid_t getpid(void) {
  return call(CALL_GET_PID, 0, 0, 0);
}

/* The child has the calling thread alone. */
pid_t fork(void) {
  pid_t answer = or_errno(call(CALL_FORK, 0, 0, 0));
  if (answer == 0) thread_forked();
  return answer;
}

/* `child` is a process's number, or -1 or 0 for any. The kernel's status is one of 0 to 255, with
   128 and more for a fault or a signal; where it is told as an exit status, WEXITSTATUS gives
   it. */
pid_t waitpid(pid_t child, int *status, int options) {
  if (options != 0 || child < -1) {
    errno = EINVAL;
    return -1;
  }
  struct answer answer = call_for_two(CALL_WAIT, child > 0 ? (uint32_t)child : 0, 0, 0);
  if (answer.first >= 0 && status != NULL) *status = (int)(answer.second << 8);
  return or_errno(answer.first);
}

pid_t wait(int *status) {
  return waitpid(-1, status, 0);
}

/* A signal that the process sends to itself comes before this returns, as POSIX has it: at the next
   round's start, so the thread yields. That of abort ends the process with 134; so it does where
   nobody serves the call. */
int kill(pid_t process, int signal) {
  int32_t answer = call(CALL_KILL, (uint32_t)process, (uint32_t)signal, 0);
  if (answer == NO_CALL && signal == SIGABRT && process == getpid()) _exit(128 + SIGABRT);
  if (answer == 0 && process == getpid()) call(CALL_YIELD, 0, 0, 0);
  return or_errno(answer);
}
