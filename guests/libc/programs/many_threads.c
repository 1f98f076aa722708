/* Threads that come and go, many more than there is room for at a time, and a fork among them: the
   child has the thread that called fork, and makes others of its own. It prints what it prints
   elsewhere, built by `gcc -pthread`:

   Expect: 4000 threads
           the child has 4001
           the child ended with 0, here are 4000
   and `process 1 status 0`, `process 2 status 0`. */
#include <pthread.h>
#include <semaphore.h>
#include <stdio.h>
#include <stdlib.h>
#include <sys/wait.h>
#include <unistd.h>

static sem_t ended, hold;
static pthread_mutex_t mutex = PTHREAD_MUTEX_INITIALIZER;
static int count;

static void *add(void *argument) {
  pthread_mutex_lock(&mutex);
  count++;
  pthread_mutex_unlock(&mutex);
  if (argument != NULL) sem_post(argument);
  return NULL;
}

static void *stay(void *argument) {
  sem_wait(argument);
  return NULL;
}

int main(void) {
  pthread_t thread;
  sem_init(&ended, 0, 0), sem_init(&hold, 0, 0);
  for (int i = 0; i < 3000; i++)
    if (pthread_create(&thread, NULL, add, NULL) || pthread_join(thread, NULL)) return 1;
  for (int i = 0; i < 1000; i++) {
    if (pthread_create(&thread, NULL, add, &ended) || pthread_detach(thread)) return 2;
    sem_wait(&ended);
  }
  printf("%d threads\n", count);
  fflush(stdout);
  pthread_create(&thread, NULL, stay, &hold);
  pid_t child = fork();
  if (child == 0) {
    pthread_t other;
    if (pthread_create(&other, NULL, add, NULL) || pthread_join(other, NULL)) _exit(3);
    printf("the child has %d\n", count);
    pthread_exit(NULL);
  }
  int status;
  waitpid(child, &status, 0);
  printf("the child ended with %d, here are %d\n", WEXITSTATUS(status), count);
  sem_post(&hold);
  pthread_join(thread, NULL);
  return 0;
}
