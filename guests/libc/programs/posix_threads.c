/* The functions of <pthread.h> and <semaphore.h> that there are here, tried once each, and what
   they refuse: IEEE Std 1003.1-2017. What it prints depends on no order of the threads, so it is what
   the same program prints elsewhere, built by `gcc -pthread`:

   Expect: join 7, exit 8, main 1 0, deadlock 1
           attributes 1 1 1, large stack 1, detached 1
           cleanup 3 then 1
           mutex 2000, busy 1
           recursive 1 1, foreign 1, errorcheck 1 1 1
           queue 5050
           broadcast 4
           once 1
           keys 6, destroyed 3, here 1, deleted 1
           barrier 3 of 3, serial 3
           rwlock readers 1, busy 1 1, writer 1 1, sum 400
           spin 2000, busy 1
           semaphore 0 1 1, value 2, full 1, passed 500
           yields 0 0 0
           end
   and `process 1 status 0`. */
#include <errno.h>
#include <limits.h>
#include <pthread.h>
#include <sched.h>
#include <semaphore.h>
#include <stdint.h>
#include <stdio.h>
#include <stdlib.h>
#include <string.h>
#include <time.h>
#include <unistd.h>

enum { COUNT = 4 };

static void check(int answer) {
  if (answer == 0) return;
  printf("refused: %s\n", strerror(answer));
  exit(EXIT_FAILURE);
}

static pthread_t start(void *(*function)(void *), void *argument) {
  pthread_t thread;
  check(pthread_create(&thread, NULL, function, argument));
  return thread;
}

static intptr_t join(pthread_t thread) {
  void *result;
  check(pthread_join(thread, &result));
  return (intptr_t)result;
}

static intptr_t answer_of(void *(*function)(void *), void *argument) {
  return join(start(function, argument));
}

/* The sum of what COUNT threads give, which are told 1 to COUNT. */
static intptr_t sum_of(void *(*function)(void *)) {
  pthread_t threads[COUNT];
  intptr_t sum = 0;
  for (intptr_t i = 0; i < COUNT; i++) threads[i] = start(function, (void *)(i + 1));
  for (int i = 0; i < COUNT; i++) sum += join(threads[i]);
  return sum;
}

/* ---- threads ---- */

static pthread_t told;

static void *give_seven(void *argument) {
  told = pthread_self();
  return (void *)(*(intptr_t *)argument + 3);
}

static void *give_eight(void *argument) {
  (void)argument;
  sched_yield();
  pthread_exit((void *)8);
}

static void *join_self(void *argument) {
  (void)argument;
  return (void *)(intptr_t)(pthread_join(pthread_self(), NULL) == EDEADLK);
}

static void try_threads(void) {
  intptr_t four = 4;
  pthread_t first = start(give_seven, &four), second = start(give_eight, NULL);
  intptr_t seven = join(first);
  int is_same = pthread_equal(told, first) != 0;
  int is_other = pthread_equal(second, pthread_self()) != 0;
  printf("join %d, exit %d, main %d %d, deadlock %d\n", (int)seven, (int)join(second), is_same,
         is_other, (int)answer_of(join_self, NULL));
}

static sem_t detached_ended;

static void *end_detached(void *argument) {
  (void)argument;
  sem_post(&detached_ended);
  return NULL;
}

static void *use_stack(void *argument) {
  volatile char bytes[200000];
  (void)argument;
  for (size_t i = 0; i < sizeof bytes; i += 1000) bytes[i] = 1;
  return (void *)(intptr_t)bytes[1000];
}

static void try_attributes(void) {
  pthread_attr_t attributes;
  pthread_t thread;
  int state = -1;
  size_t bytes = 0;
  check(sem_init(&detached_ended, 0, 0));
  check(pthread_attr_init(&attributes));
  check(pthread_attr_getdetachstate(&attributes, &state));
  int is_joinable = state == PTHREAD_CREATE_JOINABLE;
  int is_refused = pthread_attr_setstacksize(&attributes, 1) == EINVAL;
  check(pthread_attr_setstacksize(&attributes, 262144));
  check(pthread_attr_getstacksize(&attributes, &bytes));
  printf("attributes %d %d %d, ", is_joinable, is_refused, bytes == 262144);
  check(pthread_create(&thread, &attributes, use_stack, NULL));
  printf("large stack %d, ", (int)join(thread));
  check(pthread_attr_setdetachstate(&attributes, PTHREAD_CREATE_DETACHED));
  check(pthread_create(&thread, &attributes, end_detached, NULL));
  sem_wait(&detached_ended);
  check(pthread_detach(start(end_detached, NULL)));
  sem_wait(&detached_ended);
  printf("detached %d\n", pthread_attr_setdetachstate(&attributes, 77) == EINVAL);
  check(pthread_attr_destroy(&attributes));
}

static int cleaned[2], cleanings;

static void clean(void *number) {
  cleaned[cleanings++ % 2] = (int)(intptr_t)number;
}

static void *leave_early(void *argument) {
  pthread_cleanup_push(clean, (void *)1);
  pthread_cleanup_push(clean, (void *)2);
  pthread_cleanup_pop(0);
  pthread_cleanup_push(clean, (void *)3);
  if (argument == NULL) pthread_exit(NULL);
  pthread_cleanup_pop(1);
  pthread_cleanup_pop(1);
  return NULL;
}

static void try_cleanup(void) {
  answer_of(leave_early, NULL);
  printf("cleanup %d then %d\n", cleaned[0], cleaned[1]);
}

/* ---- mutexes ---- */

static pthread_mutex_t mutex = PTHREAD_MUTEX_INITIALIZER;
static volatile int counter;

static void *add(void *argument) {
  (void)argument;
  for (int i = 0; i < 500; i++) {
    pthread_mutex_lock(&mutex);
    counter = counter + 1;
    pthread_mutex_unlock(&mutex);
  }
  return NULL;
}

static void *try_mutex(void *argument) {
  int answer = pthread_mutex_trylock(argument);
  if (answer == 0) pthread_mutex_unlock(argument);
  return (void *)(intptr_t)answer;
}

static void *unlock_it(void *argument) {
  return (void *)(intptr_t)pthread_mutex_unlock(argument);
}

static void make_mutex(pthread_mutex_t *made, int type) {
  pthread_mutexattr_t attributes;
  int kept = -1;
  check(pthread_mutexattr_init(&attributes));
  check(pthread_mutexattr_settype(&attributes, type));
  check(pthread_mutexattr_gettype(&attributes, &kept));
  if (kept != type) puts("another type");
  check(pthread_mutex_init(made, &attributes));
  check(pthread_mutexattr_destroy(&attributes));
}

static void try_mutexes(void) {
  sum_of(add);
  check(pthread_mutex_lock(&mutex));
  printf("mutex %d, busy %d\n", counter, answer_of(try_mutex, &mutex) == EBUSY);
  check(pthread_mutex_unlock(&mutex));

  pthread_mutex_t again, careful;
  make_mutex(&again, PTHREAD_MUTEX_RECURSIVE);
  check(pthread_mutex_lock(&again));
  check(pthread_mutex_trylock(&again));
  check(pthread_mutex_unlock(&again));
  int is_busy = answer_of(try_mutex, &again) == EBUSY;
  int is_foreign = answer_of(unlock_it, &again) == EPERM;
  check(pthread_mutex_unlock(&again));
  printf("recursive %d %d, foreign %d, ", is_busy, answer_of(try_mutex, &again) == 0, is_foreign);
  make_mutex(&careful, PTHREAD_MUTEX_ERRORCHECK);
  check(pthread_mutex_lock(&careful));
  int is_deadlock = pthread_mutex_lock(&careful) == EDEADLK;
  is_busy = pthread_mutex_trylock(&careful) == EBUSY;
  check(pthread_mutex_unlock(&careful));
  printf("errorcheck %d %d %d\n", is_deadlock, is_busy, pthread_mutex_unlock(&careful) == EPERM);
  check(pthread_mutex_destroy(&again));
  check(pthread_mutex_destroy(&careful));
}

/* ---- conditions: a queue of four places, and a gate that all pass at once ---- */

static pthread_cond_t not_empty = PTHREAD_COND_INITIALIZER, not_full, gate;
static int places[4], filled, taken, waiting, is_open;

static void *put_numbers(void *argument) {
  (void)argument;
  for (int number = 1; number <= 100; number++) {
    pthread_mutex_lock(&mutex);
    while (filled - taken == 4) pthread_cond_wait(&not_full, &mutex);
    places[filled++ % 4] = number;
    pthread_cond_signal(&not_empty);
    pthread_mutex_unlock(&mutex);
  }
  return NULL;
}

static void *take_numbers(void *argument) {
  intptr_t sum = 0;
  (void)argument;
  for (int turn = 0; turn < 25; turn++) {
    pthread_mutex_lock(&mutex);
    while (filled == taken) pthread_cond_wait(&not_empty, &mutex);
    sum += places[taken++ % 4];
    pthread_cond_signal(&not_full);
    pthread_mutex_unlock(&mutex);
  }
  return (void *)sum;
}

static void *pass_gate(void *argument) {
  (void)argument;
  pthread_mutex_lock(&mutex);
  waiting++;
  while (!is_open) pthread_cond_wait(&gate, &mutex);
  pthread_mutex_unlock(&mutex);
  return (void *)1;
}

static void *open_gate(void *argument) {
  (void)argument;
  for (int is_there = 0; !is_there; sched_yield()) {
    pthread_mutex_lock(&mutex);
    is_there = waiting == COUNT;
    pthread_mutex_unlock(&mutex);
  }
  pthread_mutex_lock(&mutex);
  is_open = 1;
  pthread_cond_broadcast(&gate);
  pthread_mutex_unlock(&mutex);
  return NULL;
}

static void try_conditions(void) {
  check(pthread_cond_init(&not_full, NULL));
  check(pthread_cond_init(&gate, NULL));
  pthread_t giver = start(put_numbers, NULL);
  printf("queue %d\n", (int)sum_of(take_numbers));
  join(giver);
  pthread_t opener = start(open_gate, NULL);
  printf("broadcast %d\n", (int)sum_of(pass_gate));
  join(opener);
  check(pthread_cond_destroy(&not_empty));
  check(pthread_cond_destroy(&not_full));
  check(pthread_cond_destroy(&gate));
}

/* ---- once, and storage of each thread's own ---- */

static pthread_once_t flag = PTHREAD_ONCE_INIT;
static pthread_key_t key;
static int calls, destroyed;

static void count_call(void) {
  calls++;
}

static void *call_it(void *argument) {
  (void)argument;
  pthread_once(&flag, count_call);
  return (void *)(intptr_t)calls;
}

static void destroy(void *value) {
  pthread_mutex_lock(&mutex);
  if (value != NULL) destroyed++;
  pthread_mutex_unlock(&mutex);
}

/* Thread 4 keeps nothing, so nothing is destroyed for it. */
static void *keep(void *argument) {
  if (pthread_getspecific(key) != NULL || (intptr_t)argument == 4) return NULL;
  pthread_setspecific(key, argument);
  sched_yield();
  return pthread_getspecific(key);
}

static void try_storage(void) {
  printf("once %d\n", sum_of(call_it) == COUNT ? calls : 0);
  check(pthread_key_create(&key, destroy));
  int sum = (int)sum_of(keep), is_here = pthread_getspecific(key) == NULL;
  check(pthread_key_delete(key));
  printf("keys %d, destroyed %d, here %d, deleted %d\n", sum, destroyed, is_here,
         pthread_setspecific(key, &key) == EINVAL);
}

/* ---- barriers ---- */

static pthread_barrier_t barrier;
static int arrived[3];

/* In each of three turns all have arrived once anybody has passed. */
static void *pass_barrier(void *argument) {
  intptr_t serial = 0;
  (void)argument;
  for (int turn = 0; turn < 3; turn++) {
    __atomic_fetch_add(&arrived[turn], 1, __ATOMIC_SEQ_CST);
    int answer = pthread_barrier_wait(&barrier);
    if (__atomic_load_n(&arrived[turn], __ATOMIC_SEQ_CST) != COUNT) puts("passed too early");
    if (answer == PTHREAD_BARRIER_SERIAL_THREAD) serial++;
    else check(answer);
  }
  return (void *)serial;
}

static void try_barriers(void) {
  int is_refused = pthread_barrier_init(&barrier, NULL, 0) == EINVAL;
  check(pthread_barrier_init(&barrier, NULL, COUNT));
  intptr_t serial = sum_of(pass_barrier);
  check(pthread_barrier_destroy(&barrier));
  printf("barrier %d of 3, serial %d\n", is_refused ? 3 : 0, (int)serial);
}

/* ---- locks of readers and writers ---- */

static pthread_rwlock_t shelf = PTHREAD_RWLOCK_INITIALIZER;
static volatile int left_side, right_side;

static void *read_now(void *argument) {
  (void)argument;
  int answer = pthread_rwlock_tryrdlock(&shelf);
  if (answer == 0) pthread_rwlock_unlock(&shelf);
  return (void *)(intptr_t)answer;
}

static void *write_now(void *argument) {
  (void)argument;
  int answer = pthread_rwlock_trywrlock(&shelf);
  if (answer == 0) pthread_rwlock_unlock(&shelf);
  return (void *)(intptr_t)answer;
}

/* Odd threads write both sides alike, even ones see them alike. */
static void *use_shelf(void *argument) {
  intptr_t good = 0;
  for (int turn = 0; turn < 100; turn++) {
    if ((intptr_t)argument % 2) {
      pthread_rwlock_wrlock(&shelf);
      left_side = left_side + 1;
      right_side = right_side + 1;
    } else {
      pthread_rwlock_rdlock(&shelf);
    }
    good += left_side == right_side;
    pthread_rwlock_unlock(&shelf);
  }
  return (void *)good;
}

static void try_shelf(void) {
  check(pthread_rwlock_rdlock(&shelf));
  int is_shared = answer_of(read_now, NULL) == 0;
  int is_busy = answer_of(write_now, NULL) == EBUSY;
  check(pthread_rwlock_unlock(&shelf));
  check(pthread_rwlock_wrlock(&shelf));
  int is_alone = answer_of(read_now, NULL) == EBUSY;
  int is_mine = pthread_rwlock_wrlock(&shelf) == EDEADLK;
  check(pthread_rwlock_unlock(&shelf));
  int is_free = answer_of(write_now, NULL) == 0;
  printf("rwlock readers %d, busy %d %d, writer %d %d, sum %d\n", is_shared, is_busy, is_alone,
         is_mine, is_free, (int)sum_of(use_shelf));
  check(pthread_rwlock_destroy(&shelf));
}

/* ---- spin locks ---- */

static pthread_spinlock_t spin;

static void *add_by_spin(void *argument) {
  (void)argument;
  for (int i = 0; i < 500; i++) {
    pthread_spin_lock(&spin);
    counter = counter + 1;
    pthread_spin_unlock(&spin);
  }
  return NULL;
}

static void try_spin(void) {
  counter = 0;
  check(pthread_spin_init(&spin, PTHREAD_PROCESS_PRIVATE));
  sum_of(add_by_spin);
  check(pthread_spin_lock(&spin));
  printf("spin %d, busy %d\n", counter, pthread_spin_trylock(&spin) == EBUSY);
  check(pthread_spin_unlock(&spin));
  check(pthread_spin_destroy(&spin));
}

/* ---- semaphores: two may be inside at once ---- */

static sem_t room, items;
static int inside, most_inside;

static void *visit(void *argument) {
  (void)argument;
  for (int i = 0; i < 50; i++) {
    sem_wait(&room);
    int now = __atomic_add_fetch(&inside, 1, __ATOMIC_SEQ_CST);
    if (now > 2) most_inside = now;
    sched_yield();
    __atomic_fetch_sub(&inside, 1, __ATOMIC_SEQ_CST);
    sem_post(&room);
  }
  return NULL;
}

static void *give_items(void *argument) {
  (void)argument;
  for (int i = 0; i < 125; i++) sem_post(&items);
  return NULL;
}

static void *take_items(void *argument) {
  (void)argument;
  for (int i = 0; i < 500; i++) sem_wait(&items);
  return (void *)500;
}

static void try_semaphores(void) {
  int value = -1;
  check(sem_init(&room, 0, 2));
  check(sem_init(&items, 0, 0));
  sum_of(visit);
  check(sem_getvalue(&room, &value));
  int is_empty = sem_trywait(&items) == -1 && errno == EAGAIN;
  int is_refused = sem_init(&items, 0, 0xFFFFFFFFu) == -1 && errno == EINVAL;
  printf("semaphore %d %d %d, value %d, ", most_inside, is_empty, is_refused, value);
  check(sem_init(&items, 0, SEM_VALUE_MAX));
  int is_full = sem_post(&items) == -1 && errno == EOVERFLOW;
  check(sem_init(&items, 0, 0));
  pthread_t taker = start(take_items, NULL);
  sum_of(give_items);
  printf("full %d, passed %d\n", is_full, (int)join(taker));
  check(sem_destroy(&room));
  check(sem_destroy(&items));
}

static void *say_end(void *argument) {
  for (int turn = 0; turn < 3; turn++) sched_yield();
  pthread_join(*(pthread_t *)argument, NULL);
  puts("end");
  return NULL;
}

int main(void) {
  static pthread_t first;
  try_threads();
  try_attributes();
  try_cleanup();
  try_mutexes();
  try_conditions();
  try_storage();
  try_barriers();
  try_shelf();
  try_spin();
  try_semaphores();
  struct timespec moment = {0, 1000};
  printf("yields %d %d %d\n", sched_yield(), usleep(1), nanosleep(&moment, NULL));
  first = pthread_self();
  pthread_detach(start(say_end, &first));
  pthread_exit(NULL);
}
