#include "keys.h"

#include <stddef.h>
#include <stdint.h>

#include "lock.h"

/* `made` is how often the key was made: a value that was set before the last time isn't there any
   more. */
static struct {
  bool is_used;
  uint32_t made;
  void (*destructor)(void *value);
} keys[KEYS];
static struct __lock keys_lock;
static _Thread_local struct {
  void *value;
  uint32_t made;
} values[KEYS];

int key_make(void (*destructor)(void *value)) {
  int made = -1;
  lock_take(&keys_lock);
  for (int key = 0; key < KEYS && made < 0; key++) {
    if (keys[key].is_used) continue;
    keys[key].is_used = true;
    keys[key].made++;
    keys[key].destructor = destructor;
    made = key;
  }
  lock_release(&keys_lock);
  return made;
}

bool key_is_made(int key) {
  return key >= 0 && key < KEYS && keys[key].is_used;
}

void key_drop(int key) {
  lock_take(&keys_lock);
  keys[key].is_used = false;
  lock_release(&keys_lock);
}

void *key_value(int key) {
  return values[key].made == keys[key].made ? values[key].value : NULL;
}

void key_set(int key, const void *value) {
  values[key].value = (void *)(uintptr_t)value;
  values[key].made = keys[key].made;
}

void call_key_destructors(void) {
  for (int turn = 0; turn < TSS_DTOR_ITERATIONS; turn++) {
    for (int key = 0; key < KEYS; key++) {
      void *value = key_value(key);
      if (!keys[key].is_used || keys[key].destructor == NULL || value == NULL) continue;
      key_set(key, NULL);
      keys[key].destructor(value);
    }
  }
}
