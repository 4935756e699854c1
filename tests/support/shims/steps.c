/* Put in front of the C library by LD_PRELOAD, this has a process's calls of one function on one
   descriptor move little, be interrupted or fail. The variable STEPS names the function, the
   descriptor, and then what each call does in turn, as in "read 0 137 interrupted fails": a number is
   the most bytes that the call moves. A call behind the last step is as without this; a last step with
   a star, as "1*", is that of all later calls, too. The function is read, write, bind or accept4; one
   that moves no bytes is as without this where its step is a number. STEPS has at most 8,191
   characters: a process with more is ended by abort.
   When the process ends, the file that STEPS_LOG names has how many calls there were, and how many
   bytes they moved. */
#define _GNU_SOURCE
#include <errno.h>
#include <fcntl.h>
#include <stdio.h>
#include <stdlib.h>
#include <string.h>
#include <sys/socket.h>
#include <sys/syscall.h>
#include <unistd.h>

static char steps[8192];
static char *rest, *function;
static int descriptor = -1;
static long calls, moved;

__attribute__((constructor)) static void begin(void) {
  const char *text = getenv("STEPS");
  if (!text)
    return;
  if (strlen(text) >= sizeof steps)
    abort();
  rest = strcpy(steps, text);
  function = strsep(&rest, " ");
  descriptor = atoi(rest ? strsep(&rest, " ") : "-1");
}

__attribute__((destructor)) static void end(void) {
  const char *name = getenv("STEPS_LOG");
  int log = name ? open(name, O_CREAT | O_WRONLY | O_TRUNC, 0600) : -1;
  if (log < 0)
    return;
  dprintf(log, "%ld %ld", calls, moved);
  close(log);
}

static int is_named(const char *name, int fd) {
  return fd == descriptor && strcmp(name, function) == 0;
}

/* The step of this call, or NULL behind the last. */
static const char *step_of_call(void) {
  static const char *step;
  if (!step || !strchr(step, '*'))
    step = rest ? strsep(&rest, " ") : NULL;
  return step;
}

/* The most bytes that this call moves, or -1 where it fails. */
static ssize_t next(const char *name, int fd, size_t count) {
  if (!is_named(name, fd))
    return count;
  calls++;
  const char *step = step_of_call();
  if (!step)
    return count;
  if (step[0] >= '0' && step[0] <= '9') {
    size_t most = strtoul(step, NULL, 10);
    return count < most ? count : most;
  }
  errno = strcmp(step, "interrupted") == 0 ? EINTR : EIO;
  return -1;
}

/* Adds what a call moved. */
static ssize_t noted(const char *name, int fd, ssize_t count) {
  if (count > 0 && is_named(name, fd))
    moved += count;
  return count;
}

ssize_t read(int fd, void *bytes, size_t count) {
  ssize_t most = next("read", fd, count);
  if (most <= 0 && count > 0)
    return most;
  return noted("read", fd, syscall(SYS_read, fd, bytes, most));
}

ssize_t write(int fd, const void *bytes, size_t count) {
  ssize_t most = next("write", fd, count);
  if (most <= 0 && count > 0)
    return most;
  return noted("write", fd, syscall(SYS_write, fd, bytes, most));
}

int bind(int fd, const struct sockaddr *address, socklen_t length) {
  if (next("bind", fd, 1) < 0)
    return -1;
  return syscall(SYS_bind, fd, address, length);
}

int accept4(int fd, struct sockaddr *address, socklen_t *length, int flags) {
  if (next("accept4", fd, 1) < 0)
    return -1;
  return syscall(SYS_accept4, fd, address, length, flags);
}
