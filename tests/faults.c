/* Loaded before the C library by tests/faults: spoils a lister's calls of open, read and write on one file, as variables say.

   FAULT_FILE            deck.bin, window.bin, stdin or stdout
   FAULT_MOST            a call moves at most so many bytes
   FAULT_FROM, FAULT_TO  these calls, counted from 1, move nothing; call 0 is that of open
   FAULT_ERROR           they fail with this error; without it they answer 0
   FAULT_COUNT           a file that gets the number of calls */
#define _GNU_SOURCE
#include <errno.h>
#include <fcntl.h>
#include <stdio.h>
#include <stdlib.h>
#include <string.h>
#include <sys/syscall.h>
#include <unistd.h>

static int spoiled = -1; /* the file's descriptor */
static long calls;

static long number(const char *name, long otherwise) {
  const char *text = getenv(name);
  return text ? atol(text) : otherwise;
}

static int named(const char *name) {
  const char *file = getenv("FAULT_FILE");
  return file && strcmp(file, name) == 0;
}

static int is_spoiled(void) {
  return number("FAULT_FROM", 1) <= calls && calls <= number("FAULT_TO", -1);
}

static long spoil(void) {
  errno = (int)number("FAULT_ERROR", 0);
  return errno ? -1 : 0;
}

int open(const char *path, int flags, ...) {
  const char *slash = strrchr(path, '/');
  if (!named(slash ? slash + 1 : path))
    return (int)syscall(SYS_openat, AT_FDCWD, path, flags, 0);
  if (is_spoiled())
    return (int)spoil();
  return spoiled = (int)syscall(SYS_openat, AT_FDCWD, path, flags, 0);
}

int close(int fd) {
  if (fd == spoiled)
    spoiled = -1;
  return (int)syscall(SYS_close, fd);
}

static ssize_t move(long call, int fd, void *bytes, size_t count) {
  size_t most = (size_t)number("FAULT_MOST", 1 << 30);
  if (fd != spoiled && !(fd == 0 && named("stdin")) && !(fd == 1 && named("stdout")))
    return syscall(call, fd, bytes, count);
  calls++;
  return is_spoiled() ? spoil() : syscall(call, fd, bytes, count < most ? count : most);
}

ssize_t read(int fd, void *bytes, size_t count) { return move(SYS_read, fd, bytes, count); }

ssize_t write(int fd, const void *bytes, size_t count) { return move(SYS_write, fd, (void *)bytes, count); }

__attribute__((destructor)) static void tell(void) {
  char text[32];
  const char *path = getenv("FAULT_COUNT");
  if (!path)
    return;
  int fd = (int)syscall(SYS_openat, AT_FDCWD, path, O_WRONLY | O_CREAT | O_TRUNC, 0644);
  syscall(SYS_write, fd, text, (size_t)sprintf(text, "%ld", calls));
}
