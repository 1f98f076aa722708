/* The types of <dirent.h>. There are no folders: opendir answers NULL. */
#ifndef _SYS_DIRENT_H_
#define _SYS_DIRENT_H_

#include <sys/types.h>

typedef struct __folder DIR;

struct dirent {
  ino_t d_ino;
  char d_name[256];
};

#endif
