// Loaded before the C library (LD_PRELOAD), for tests/program: every other read of standard input,
// and write of standard output or descriptor 3, fails as if a signal had come. The others move
// seven bytes at most. At the end it says on descriptor 2 how many failed.
#define _GNU_SOURCE
#include <errno.h>
#include <stdio.h>
#include <sys/syscall.h>
#include <unistd.h>

static int again, failed;

static int interrupted(void) {
  again = !again;
  failed += again;
  errno = EINTR;
  return again;
}

static size_t few(size_t count) { return count < 7 ? count : 7; }

ssize_t read(int fd, void *bytes, size_t count) {
  if (fd != 0) return syscall(SYS_read, fd, bytes, count);
  return interrupted() ? -1 : syscall(SYS_read, fd, bytes, few(count));
}

ssize_t write(int fd, const void *bytes, size_t count) {
  if (fd != 1 && fd != 3) return syscall(SYS_write, fd, bytes, count);
  return interrupted() ? -1 : syscall(SYS_write, fd, bytes, few(count));
}

__attribute__((destructor)) static void tell(void) { dprintf(2, "%d interrupted\n", failed); }
