/* Put in front of the C library by LD_PRELOAD, this kills a process by SIGKILL at one of its calls that change a file or
   wait for the disk: the one whose number, from 1, is in the variable KILL_AT. Half of the bytes of a write are then
   written. With no such variable nothing is killed. When the process ends by itself, the file that KILL_LOG names has how
   many of these calls there were. */
#define _GNU_SOURCE
#include <fcntl.h>
#include <signal.h>
#include <stdio.h>
#include <stdlib.h>
#include <sys/syscall.h>
#include <unistd.h>

static long calls, last;

__attribute__((constructor)) static void begin(void) {
  const char *text = getenv("KILL_AT");
  last = text ? atol(text) : 0;
}

__attribute__((destructor)) static void end(void) {
  const char *name = getenv("KILL_LOG");
  int log = name ? open(name, O_CREAT | O_WRONLY | O_TRUNC, 0600) : -1;
  if (log < 0)
    return;
  dprintf(log, "%ld", calls);
  close(log);
}

/* Whether this call is the last one. */
static int is_last(void) { return ++calls == last; }

static void die(void) { kill(getpid(), SIGKILL); }

ssize_t pwrite(int fd, const void *bytes, size_t count, off_t at) {
  if (is_last()) {
    syscall(SYS_pwrite64, fd, bytes, count / 2, at);
    die();
  }
  return syscall(SYS_pwrite64, fd, bytes, count, at);
}

ssize_t pwrite64(int fd, const void *bytes, size_t count, off64_t at) { return pwrite(fd, bytes, count, at); }

int ftruncate(int fd, off_t length) {
  if (is_last())
    die();
  return syscall(SYS_ftruncate, fd, length);
}

int ftruncate64(int fd, off64_t length) { return ftruncate(fd, length); }

int fsync(int fd) {
  if (is_last())
    die();
  return syscall(SYS_fsync, fd);
}

int fdatasync(int fd) {
  if (is_last())
    die();
  return syscall(SYS_fdatasync, fd);
}
