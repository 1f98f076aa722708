/* Calls that are made once. */
#ifndef LIBC_ONCE_H
#define LIBC_ONCE_H

#include <machine/_threads.h>

/* Calls the function where nobody has for this flag; whoever comes meanwhile waits until it has
   returned. */
void make_once(struct __once *flag, void (*function)(void));

#endif
