/* Calls that programs are linked with, and that nothing here can do: files, folders, users,
   terminals, other programs, and signals from outside. There are no files, so a path isn't found,
   ENOENT; the others fail with ENOSYS. None of these is linked into a program that doesn't name
   it. */
#include <dirent.h>
#include <errno.h>
#include <fcntl.h>
#include <grp.h>
#include <pwd.h>
#include <signal.h>
#include <stddef.h>
#include <sys/resource.h>
#include <sys/select.h>
#include <sys/stat.h>
#include <sys/time.h>
#include <sys/wait.h>
#include <unistd.h>
#include <utime.h>

/* picolibc's headers have some of these only for other systems. */
#pragma GCC diagnostic ignored "-Wunused-parameter"

/* A call that fails with the error. */
#define FAILS(type, answer, error, name, parameters)                                               \
  type name parameters {                                                                           \
    errno = error;                                                                                 \
    return answer;                                                                                 \
  }

/* ---- files and folders, by their paths ---- */

FAILS(int, -1, ENOENT, open, (const char *path, int flags, ...))
FAILS(int, -1, ENOENT, creat, (const char *path, mode_t mode))
FAILS(int, -1, ENOENT, stat, (const char *restrict path, struct stat *restrict told))
FAILS(int, -1, ENOENT, lstat, (const char *restrict path, struct stat *restrict told))
FAILS(int, -1, ENOENT, access, (const char *path, int way))
FAILS(int, -1, ENOENT, unlink, (const char *path))
FAILS(int, -1, ENOENT, rename, (const char *from, const char *to))
FAILS(int, -1, ENOENT, link, (const char *from, const char *to))
FAILS(int, -1, ENOENT, symlink, (const char *from, const char *to))
FAILS(ssize_t, -1, ENOENT, readlink, (const char *restrict path, char *restrict to, size_t size))
FAILS(int, -1, ENOENT, utime, (const char *path, const struct utimbuf *times))
FAILS(int, -1, ENOENT, utimes, (const char *path, const struct timeval times[2]))
FAILS(int, -1, ENOENT, chmod, (const char *path, mode_t mode))
FAILS(int, -1, ENOENT, chown, (const char *path, uid_t owner, gid_t group))
FAILS(int, -1, ENOENT, lchown, (const char *path, uid_t owner, gid_t group))
FAILS(int, -1, ENOENT, truncate, (const char *path, off_t length))
FAILS(int, -1, ENOENT, chdir, (const char *path))
FAILS(int, -1, ENOENT, rmdir, (const char *path))
FAILS(int, -1, ENOENT, mkdir, (const char *path, mode_t mode))
FAILS(int, -1, ENOENT, mkfifo, (const char *path, mode_t mode))
FAILS(DIR *, NULL, ENOENT, opendir, (const char *path))
FAILS(struct dirent *, NULL, EBADF, readdir, (DIR *folder))
FAILS(int, -1, EBADF, closedir, (DIR *folder))
FAILS(char *, NULL, ENOENT, getcwd, (char *to, size_t size))
FAILS(long, -1, ENOENT, pathconf, (const char *path, int name))

/* ---- descriptors ---- */

FAILS(int, -1, ENOSYS, fcntl, (int descriptor, int request, ...))
FAILS(int, -1, ENOSYS, dup2, (int from, int to))
FAILS(int, -1, ENOSYS, fchmod, (int descriptor, mode_t mode))
FAILS(int, -1, ENOSYS, fchown, (int descriptor, uid_t owner, gid_t group))
FAILS(int, -1, ENOSYS, ftruncate, (int descriptor, off_t length))
FAILS(int, -1, ENOSYS, fsync, (int descriptor))
FAILS(int, -1, ENOSYS, select,
      (int most, fd_set *reading, fd_set *writing, fd_set *failing, struct timeval *limit))
FAILS(char *, NULL, ENOTTY, ttyname, (int descriptor))
FAILS(long, -1, ENOSYS, fpathconf, (int descriptor, int name))

/* ---- other programs ---- */

FAILS(int, -1, ENOSYS, execve, (const char *path, char *const words[], char *const environment[]))
FAILS(int, -1, ENOSYS, execv, (const char *path, char *const words[]))
FAILS(int, -1, ENOSYS, execvp, (const char *name, char *const words[]))
FAILS(int, -1, ENOSYS, execl, (const char *path, const char *word, ...))
FAILS(int, -1, ENOSYS, execlp, (const char *name, const char *word, ...))
FAILS(int, -1, ENOSYS, execle, (const char *path, const char *word, ...))

/* ---- signals, limits and users ---- */

FAILS(int, -1, ENOSYS, sigaction,
      (int signal, const struct sigaction *wanted, struct sigaction *former))
FAILS(int, -1, ENOSYS, sigprocmask, (int way, const sigset_t *wanted, sigset_t *former))
FAILS(int, -1, ENOSYS, sigsuspend, (const sigset_t *mask))
FAILS(int, -1, ENOSYS, pause, (void))
FAILS(int, -1, ENOSYS, setitimer,
      (int timer, const struct itimerval *restrict wanted, struct itimerval *restrict former))
FAILS(int, -1, ENOSYS, getrusage, (int whose, struct rusage *told))
FAILS(int, -1, ENOSYS, gethostname, (char *to, size_t size))
FAILS(int, -1, ENOSYS, setpgid, (pid_t process, pid_t group))
FAILS(pid_t, -1, ENOSYS, setsid, (void))
FAILS(int, -1, ENOSYS, setuid, (uid_t user))
FAILS(int, -1, ENOSYS, setgid, (gid_t group))
FAILS(struct passwd *, NULL, ENOSYS, getpwuid, (uid_t user))
FAILS(struct passwd *, NULL, ENOSYS, getpwnam, (const char *name))
FAILS(struct group *, NULL, ENOSYS, getgrgid, (gid_t group))
FAILS(struct group *, NULL, ENOSYS, getgrnam, (const char *name))
FAILS(char *, NULL, ENOSYS, getlogin, (void))

/* ---- calls that POSIX lets no program see fail ---- */

/* No alarm is set, so none was left. */
unsigned alarm(unsigned seconds) {
  return 0;
}

void sync(void) {
}

mode_t umask(mode_t mask) {
  return 022;
}

uid_t getuid(void) {
  return 0;
}

uid_t geteuid(void) {
  return 0;
}

gid_t getgid(void) {
  return 0;
}

gid_t getegid(void) {
  return 0;
}

/* Nobody tells who made the process. */
pid_t getppid(void) {
  return 0;
}

pid_t getpgrp(void) {
  return getpid();
}

/* The limits that the kernel has. How many processors there are changes no result, so any number
   does. */
long sysconf(int name) {
  switch (name) {
  case _SC_PAGESIZE: return 4096;
  case _SC_OPEN_MAX: return 32;
  case _SC_CHILD_MAX: return 32;
  case _SC_CLK_TCK: return CLOCKS_PER_SEC;
  case _SC_NPROCESSORS_CONF:
  case _SC_NPROCESSORS_ONLN: return 4;
  default: errno = EINVAL; return -1;
  }
}
