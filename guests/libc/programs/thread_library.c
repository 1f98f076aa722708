/* Each function of <threads.h> that there is here, tried once: ISO/IEC 9899:2011, 7.26.

   Expect: join 7, exit 8, equal 1, locals 3 10
           mutex 2000, busy 1, timed 1
           recursive 2, busy 1, free 1
           queue 5050
           broadcast 4
           once 1
           storage 6, destroyed 3, here 1
           errors 1
           threads refused 1, waited for 1
           end
   and `process 1 status 0`. */
#include <errno.h>
#include <stdatomic.h>
#include <stdio.h>
#include <stdlib.h>
#include <threads.h>

enum { COUNT = 4, MOST = 80 };

/* ---- threads ---- */

static thread_local int local = 3;
static thrd_t told;

static int give_seven(void *argument) {
  told = thrd_current();
  local += *(int *)argument;
  return local == 10 ? 7 : 0;
}

static void leave(int result) {
  thrd_exit(result);
}

static int give_eight(void *argument) {
  (void)argument;
  thrd_yield();
  leave(8);
  return 0;
}

static void start(thrd_t *thread, thrd_start_t function, void *argument) {
  if (thrd_create(thread, function, argument) == thrd_success) return;
  puts("no thread");
  exit(EXIT_FAILURE);
}

static void try_threads(void) {
  thrd_t first, second;
  int seven = 7, results[2], kept = local;
  start(&first, give_seven, &seven);
  start(&second, give_eight, NULL);
  thrd_join(first, &results[0]);
  int is_same =
      thrd_equal(told, first) && !thrd_equal(first, second) && !thrd_equal(first, thrd_current());
  thrd_join(second, &results[1]);
  printf("join %d, exit %d, equal %d, locals %d %d\n", results[0], results[1], is_same, kept,
         local + seven);
}

/* ---- mutexes ---- */

static mtx_t mutex;
static volatile int counter;

static int add(void *argument) {
  (void)argument;
  for (int i = 0; i < 500; i++) {
    mtx_lock(&mutex);
    counter = counter + 1;
    mtx_unlock(&mutex);
  }
  return 0;
}

static int try_it(void *argument) {
  int answer = mtx_trylock(argument);
  if (answer == thrd_success) mtx_unlock(argument);
  return answer;
}

static int answer_of(thrd_start_t function, void *argument) {
  thrd_t thread;
  int result;
  start(&thread, function, argument);
  thrd_join(thread, &result);
  return result;
}

static void start_all(thrd_t *threads, thrd_start_t function) {
  for (int i = 0; i < COUNT; i++) start(&threads[i], function, (void *)(size_t)(i + 1));
}

static int join_all(thrd_t *threads) {
  int sum = 0, result;
  for (int i = 0; i < COUNT; i++) {
    thrd_join(threads[i], &result);
    sum += result;
  }
  return sum;
}

static void try_mutexes(void) {
  thrd_t threads[COUNT];
  mtx_init(&mutex, mtx_plain);
  start_all(threads, add);
  join_all(threads);
  mtx_lock(&mutex);
  int is_busy = answer_of(try_it, &mutex) == thrd_busy;
  mtx_unlock(&mutex);
  printf("mutex %d, busy %d, timed %d\n", counter, is_busy,
         mtx_init(&(mtx_t){0}, mtx_timed) == thrd_error);
  mtx_destroy(&mutex);

  int depth = 0;
  mtx_init(&mutex, mtx_plain | mtx_recursive);
  mtx_lock(&mutex), depth++;
  if (mtx_trylock(&mutex) == thrd_success) depth++;
  mtx_unlock(&mutex);
  is_busy = answer_of(try_it, &mutex) == thrd_busy;
  mtx_unlock(&mutex);
  printf("recursive %d, busy %d, free %d\n", depth, is_busy,
         answer_of(try_it, &mutex) == thrd_success);
  mtx_destroy(&mutex);
}

/* ---- conditions: a queue of four places, and a gate that all pass at once ---- */

static cnd_t not_empty, not_full, open_gate;
static int places[4], filled, taken, waiting, is_open;

static int put_numbers(void *argument) {
  (void)argument;
  for (int number = 1; number <= 100; number++) {
    mtx_lock(&mutex);
    while (filled - taken == 4) cnd_wait(&not_full, &mutex);
    places[filled++ % 4] = number;
    cnd_signal(&not_empty);
    mtx_unlock(&mutex);
  }
  return 0;
}

static int take_numbers(void *argument) {
  int sum = 0;
  (void)argument;
  for (int turn = 0; turn < 50; turn++) {
    mtx_lock(&mutex);
    while (filled == taken) cnd_wait(&not_empty, &mutex);
    sum += places[taken++ % 4];
    cnd_signal(&not_full);
    mtx_unlock(&mutex);
  }
  return sum;
}

static int pass_gate(void *argument) {
  (void)argument;
  mtx_lock(&mutex);
  waiting++;
  while (!is_open) cnd_wait(&open_gate, &mutex);
  mtx_unlock(&mutex);
  return 1;
}

static void wait_for_waiting(int count) {
  for (int is_there = 0; !is_there; thrd_yield()) {
    mtx_lock(&mutex);
    is_there = waiting == count;
    mtx_unlock(&mutex);
  }
}

static void open_for_all(void) {
  mtx_lock(&mutex);
  is_open = 1;
  cnd_broadcast(&open_gate);
  mtx_unlock(&mutex);
}

static void try_conditions(void) {
  thrd_t threads[COUNT], giver, takers[2];
  int sums[2];
  mtx_init(&mutex, mtx_plain);
  cnd_init(&not_empty), cnd_init(&not_full), cnd_init(&open_gate);
  start(&takers[0], take_numbers, NULL);
  start(&takers[1], take_numbers, NULL);
  start(&giver, put_numbers, NULL);
  for (int i = 0; i < 2; i++) thrd_join(takers[i], &sums[i]);
  thrd_join(giver, NULL);
  printf("queue %d\n", sums[0] + sums[1]);
  start_all(threads, pass_gate);
  wait_for_waiting(COUNT);
  open_for_all();
  printf("broadcast %d\n", join_all(threads));
  cnd_destroy(&not_empty), cnd_destroy(&not_full), cnd_destroy(&open_gate);
}

/* ---- once, and storage of each thread's own ---- */

static once_flag flag = ONCE_FLAG_INIT;
static int calls;
static tss_t key;
static atomic_int destroyed;

static void count_call(void) {
  calls++;
}

static int call_it(void *argument) {
  (void)argument;
  call_once(&flag, count_call);
  return calls;
}

static void destroy(void *value) {
  if (value != NULL) atomic_fetch_add(&destroyed, 1);
}

/* Thread 4 keeps nothing, so nothing is destroyed for it. */
static int keep(void *argument) {
  if (tss_get(key) != NULL || (size_t)argument == 4) return 0;
  tss_set(key, argument);
  thrd_yield();
  return (int)(size_t)tss_get(key);
}

static int fail(void *argument) {
  (void)argument;
  errno = EDOM;
  thrd_yield();
  return errno == EDOM;
}

static void try_storage(void) {
  thrd_t threads[COUNT];
  start_all(threads, call_it);
  int all = join_all(threads);
  printf("once %d\n", all == COUNT ? calls : 0);
  tss_create(&key, destroy);
  start_all(threads, keep);
  int sum = join_all(threads);
  printf("storage %d, destroyed %d, here %d\n", sum, destroyed, tss_get(key) == NULL);
  tss_delete(key);
  errno = 0;
  printf("errors %d\n", answer_of(fail, NULL) && errno == 0);
}

/* ---- limits and the end ---- */

/* Makes threads until one is refused, which the memory or the kernel's 64 decides, and waits for
   all that were made. */
static void try_limits(void) {
  static thrd_t threads[MOST];
  int made = 0, answer = thrd_success, all = 0, result;
  waiting = is_open = 0;
  while (made < MOST && (answer = thrd_create(&threads[made], pass_gate, NULL)) == thrd_success)
    made++;
  wait_for_waiting(made);
  open_for_all();
  for (int i = 0; i < made; i++) {
    thrd_join(threads[i], &result);
    all += result;
  }
  printf("threads refused %d, waited for %d\n", answer == thrd_nomem || answer == thrd_error,
         all == made && made > COUNT);
}

static int say_end(void *argument) {
  (void)argument;
  for (int turn = 0; turn < 3; turn++) thrd_yield();
  puts("end");
  return 0;
}

int main(void) {
  thrd_t last;
  try_threads();
  try_mutexes();
  try_conditions();
  try_storage();
  try_limits();
  start(&last, say_end, NULL);
  thrd_detach(last);
  thrd_exit(0);
}
