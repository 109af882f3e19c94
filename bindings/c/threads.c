/* threads FOLDER FOLDER: 2, 4 and 8 threads that ask the same function at once, every second one about the other transcript or
   deck, get the bytes that one gets alone. The folders have deck.bin, window.bin and calls. */
#define _GNU_SOURCE
#include "questions.h"

#include <pthread.h>

enum { MOST = 8 };

typedef struct Worker {
  pthread_t thread;
  int number;
  Asked *asked[QUESTIONS];
} Worker;

static pthread_barrier_t together;

static void *work(void *one) {
  Worker *worker = (Worker *)one;
  for (int i = 0; i < QUESTIONS; i++) {
    worker->asked[i] = new_asked(worker->number % 2);
    pthread_barrier_wait(&together);
    questions[i].ask(worker->asked[i]);
  }
  return NULL;
}

/* Asks by some threads at once, the first of them with a given number. */
static void ask_by(int count, int first, Worker *workers) {
  pthread_barrier_init(&together, NULL, (unsigned)count);
  for (int t = 0; t < count; t++) {
    workers[t].number = first + t;
    if (pthread_create(&workers[t].thread, NULL, work, &workers[t]) != 0)
      exit(2);
  }
  for (int t = 0; t < count; t++)
    pthread_join(workers[t].thread, NULL);
  pthread_barrier_destroy(&together);
}

/* How many answers of a worker are not those that one got alone. */
static int differ(const Worker *alone, const Worker *worker, int threads) {
  int found = 0;
  for (int i = 0; i < QUESTIONS; i++) {
    const Asked *one = alone->asked[i], *other = worker->asked[i];
    bool same = one->len == other->len && memcmp(one->words, other->words, sizeof one->words) == 0;
    if (!same || one->refused != 0 || other->refused != 0) {
      found++;
      printf("%s: thread %d of %d: %s\n", questions[i].name, worker->number + 1, threads, same ? "refused" : "other bytes");
    }
    free(worker->asked[i]);
  }
  return found;
}

int main(int count, char **words) {
  Worker alone[2], workers[MOST];
  int found = 0;
  if (count != 3)
    return 2;
  prepare(words + 1);
  ask_by(1, 0, &alone[0]);
  ask_by(1, 1, &alone[1]);
  for (int threads = 2; threads <= MOST; threads *= 2) {
    ask_by(threads, 0, workers);
    for (int t = 0; t < threads; t++)
      found += differ(&alone[t % 2], &workers[t], threads);
  }
  printf("%d functions asked by 2, 4 and 8 threads: %d different\n", QUESTIONS, found);
  return found != 0;
}
