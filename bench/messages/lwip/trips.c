/* Round trips to lwIP's tcpip thread: each caller sends a function to it, as netconn does, which adds an amount to a number and keeps the history, and waits
   on the caller's own semaphore. The words are how many callers, and how many calls each makes; it prints nanoseconds. */
#include <pthread.h>
#include <stdint.h>
#include <stdio.h>
#include <stdlib.h>
#include <time.h>

#include "lwip/opt.h"
#include "lwip/priv/tcpip_priv.h"
#include "lwip/sys.h"
#include "lwip/tcpip.h"

struct addition {
  uint32_t by;
  uint64_t amount;
};

struct question {
  uint32_t by;
  uint64_t amount;
  uint64_t sum;
  sys_sem_t done;
};

static uint64_t total;
static struct addition *history;
static size_t length, room;
static uint64_t calls;

static void add(void *given) {
  struct question *q = given;
  total += q->amount;
  if (length == room) {
    room = room ? 2 * room : 4;
    history = realloc(history, room * sizeof *history);
    if (!history) abort();
  }
  history[length].by = q->by;
  history[length].amount = q->amount;
  length++;
  q->sum = total;
  sys_sem_signal(&q->done);
}

static void *ask(void *given) {
  struct question q = { .by = (uint32_t)(uintptr_t)given };
  if (sys_sem_new(&q.done, 0) != ERR_OK) abort();
  for (q.amount = 0; q.amount < calls; q.amount++) {
    if (tcpip_send_msg_wait_sem(add, &q, &q.done) != ERR_OK) abort();
  }
  sys_sem_free(&q.done);
  return NULL;
}

static void ready(void *given) { sys_sem_signal(given); }

static uint64_t now(void) {
  struct timespec t;
  clock_gettime(CLOCK_MONOTONIC, &t);
  return (uint64_t)t.tv_sec * 1000000000u + (uint64_t)t.tv_nsec;
}

int main(int count, char **words) {
  if (count != 3) return 2;
  size_t callers = strtoull(words[1], NULL, 10);
  calls = strtoull(words[2], NULL, 10);
  pthread_t *threads = calloc(callers, sizeof *threads);
  sys_sem_t begun;
  if (!threads || sys_sem_new(&begun, 0) != ERR_OK) return 1;
  tcpip_init(ready, &begun);
  sys_arch_sem_wait(&begun, 0);
  uint64_t start = now();
  for (size_t i = 0; i < callers; i++) {
    if (pthread_create(&threads[i], NULL, ask, (void *)(uintptr_t)i)) return 1;
  }
  for (size_t i = 0; i < callers; i++) pthread_join(threads[i], NULL);
  uint64_t spent = now() - start;
  if (length != callers * calls) return 1;
  printf("%llu\n", (unsigned long long)spent);
  return 0;
}
