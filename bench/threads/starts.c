// One round of starts.py: what a thread takes for work that one does in some ten milliseconds, with three more that are started so:
// 0 none, 1 all by the first, 2 two by the first and the third by the first new one, 3 each by the one before it, 4 all by the first, each
// kept on a processor of its own, 5 all by the first a fifth of a second before, which sleep until it wakes them, 6 all by the first, which
// sleep at once; it gives way until they have come, four times at most, and wakes them. Prints microseconds until all is done, and behind
// how many each thread began.
#define _GNU_SOURCE
#include <pthread.h>
#include <sched.h>
#include <stdatomic.h>
#include <stdio.h>
#include <stdlib.h>
#include <time.h>
enum { UNITS = 800, FEW = 150, STEPS = 9000, THREADS = 4 };
static atomic_int next_unit;
static volatile unsigned long seen;
static long begin_of_all, begun[THREADS];
static int way;
static pthread_t threads[THREADS];
static long now(void) { struct timespec t; clock_gettime(CLOCK_MONOTONIC, &t); return t.tv_sec * 1000000L + t.tv_nsec / 1000; }
static void unit(void) {
  unsigned long x = 1;
  for (int i = 0; i < STEPS; i++) x = x * 1103515245 + 12345;
  seen = x;
}
static void stay(long thread) {
  cpu_set_t one;
  CPU_ZERO(&one);
  CPU_SET(thread, &one);
  sched_setaffinity(0, sizeof one, &one);
}
static void *life(void *arg);
static pthread_mutex_t turn = PTHREAD_MUTEX_INITIALIZER;
static pthread_cond_t rung = PTHREAD_COND_INITIALIZER;
static int has_rung;
static atomic_int come;
static void sleep_until_rung(void) {
  pthread_mutex_lock(&turn);
  while (!has_rung) pthread_cond_wait(&rung, &turn);
  pthread_mutex_unlock(&turn);
}
static void ring(void) {
  pthread_mutex_lock(&turn);
  has_rung = 1;
  pthread_cond_broadcast(&rung);
  pthread_mutex_unlock(&turn);
}
static void start(long thread) { pthread_create(&threads[thread], NULL, life, (void *)thread); }
static void *life(void *arg) {
  long thread = (long)arg;
  if (way == 2 && thread == 1) start(3);
  if (way == 3 && thread < THREADS - 1) start(thread + 1);
  if (way == 4) stay(thread);
  if (way == 6 && thread) atomic_fetch_add(&come, 1);
  if ((way == 5 || way == 6) && thread) sleep_until_rung();
  begun[thread] = now() - begin_of_all;
  while (atomic_fetch_add(&next_unit, 1) < UNITS) unit();
  if (way == 2 && thread == 1) pthread_join(threads[3], NULL);
  if (way == 3 && thread < THREADS - 1) pthread_join(threads[thread + 1], NULL);
  return NULL;
}
int main(int count, char **words) {
  way = count > 1 ? atoi(words[1]) : 0;
  int started = way == 0 ? 0 : way == 2 ? 2 : way == 3 ? 0 : 3;
  struct timespec fifth = {0, 200000000};
  if (way == 5) {
    for (long thread = 1; thread <= started; thread++) start(thread);
    nanosleep(&fifth, NULL);
  }
  for (int i = 0; i < FEW; i++) unit();
  begin_of_all = now();
  if (way == 5) ring();
  else
    for (long thread = 1; thread <= started; thread++) start(thread);
  if (way == 6) {
    for (int time = 0; time < 4 && atomic_load(&come) < started; time++) sched_yield();
    ring();
  }
  life((void *)0);
  for (long thread = 1; thread <= started; thread++) pthread_join(threads[thread], NULL);
  printf("%ld", now() - begin_of_all);
  for (int thread = 0; thread < THREADS; thread++) printf(" %ld", begun[thread]);
  printf("\n");
}
