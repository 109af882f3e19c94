/* stack FOLDER FOLDER: every function of the library on a thread with as many bytes of stack as the header states for it, each in
   a process of its own. Prints how many bytes each used; fails where one needs more, or refuses. The folders have deck.bin,
   window.bin and calls. */
#define _GNU_SOURCE
#include "questions.h"

#include <pthread.h>
#include <sys/mman.h>
#include <sys/wait.h>
#include <unistd.h>

enum { GUARD = 1 << 20, PAINT = 0xa5 };

static const struct Question *question;
static Asked *asked;

static void *ask(void *nothing) {
  question->ask(asked);
  return nothing;
}

/* Asks on a stack of a given size below which nothing can be written; prints what was used. Never returns. */
static void run(size_t size) {
  uint8_t *guard = (uint8_t *)mmap(NULL, GUARD + size, PROT_READ | PROT_WRITE, MAP_PRIVATE | MAP_ANONYMOUS, -1, 0);
  if (guard == MAP_FAILED || mprotect(guard, GUARD, PROT_NONE) != 0)
    exit(2);
  uint8_t *stack = guard + GUARD;
  memset(stack, PAINT, size);
  pthread_t thread;
  pthread_attr_t with;
  if (pthread_attr_init(&with) != 0 || pthread_attr_setstack(&with, stack, size) != 0 ||
      pthread_create(&thread, &with, ask, NULL) != 0 || pthread_join(thread, NULL) != 0)
    exit(2);
  size_t free = 0;
  while (stack[free] == PAINT)
    free++;
  printf("%s: %zu bytes of stack\n", question->name, size - free);
  if (asked->refused != 0)
    printf("%s: refused\n", question->name);
  fflush(stdout);
  _exit(asked->refused != 0);
}

/* The status of a process that asks on such a stack. */
static int status_with(size_t size) {
  int status = -1;
  pid_t child = fork();
  if (child == 0)
    run(size);
  if (child < 0 || waitpid(child, &status, 0) != child)
    exit(2);
  return status;
}

int main(int count, char **words) {
  int failed = 0;
  if (count != 3)
    return 2;
  prepare(words + 1);
  asked = new_asked(0);
  for (int i = 0; i < QUESTIONS; i++) {
    question = &questions[i];
    if (status_with(question->stack) != 0) {
      failed++;
      printf("%s: FAILED with %zu bytes of stack; with sixteen times as many:\n", question->name, question->stack);
      fflush(stdout);
      status_with(16 * question->stack);
    }
  }
  return failed != 0;
}
