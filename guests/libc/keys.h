/* Variables of which each thread has its own value, as <threads.h> and <pthread.h> have them in
   common. */
#ifndef LIBC_KEYS_H
#define LIBC_KEYS_H

#include <stdbool.h>

enum { KEYS = 128 };

/* Makes a key and answers it, or -1 where there are KEYS. At a thread's end the destructor, where
   it isn't NULL, gets the thread's value, where that isn't NULL. */
int key_make(void (*destructor)(void *value));

/* Whether key_make gave this key, and key_drop didn't take it back. */
bool key_is_made(int key);

void key_drop(int key);
void *key_value(int key);
void key_set(int key, const void *value);

/* Calls the destructors of the calling thread's values: a few times where they set new ones. */
void call_key_destructors(void);

#endif
