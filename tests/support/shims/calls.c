/* Put in front of the C library by LD_PRELOAD, this notes in order what a process does to a book in a file, or has it fail.
   The variable BOOK names the main file, with no link in its path; behind it "-wal" is the log.

   The file that CALLS names gets an entry for each call that was made: a line of what it is, of which file, at which offset
   and with how many bytes, and then those bytes.
     write FILE AT COUNT   bytes written at an offset; FILE is main or log
     cut FILE LENGTH 0     the length that the file has from then on
     sync FILE 0 0         a wait for the disk; with folder, for the names of the files
     read FILE AT 0        bytes read
     look FILE 0 0         a look at its length
     remove FILE 0 0       the name taken away
     say OUTPUT 0 COUNT    bytes written to output or error, which are the standard ones
     fail FILE 0 0         a call that failed by FAIL

   FAIL is a file or two, and a number, as in "log 12" or "log,main 0": so many calls of it are made, and each later one fails
   with EIO. Those of a name alone are not among them. */
#define _GNU_SOURCE
#include <errno.h>
#include <fcntl.h>
#include <stdio.h>
#include <stdlib.h>
#include <string.h>
#include <sys/stat.h>
#include <sys/syscall.h>
#include <sys/uio.h>
#include <unistd.h>

static char names[3][4200];
static const char *const words[] = {"main", "log", "folder"};
static const char *failing = "";
static long left;
static int notes = -1;

__attribute__((constructor)) static void begin(void) {
  const char *book = getenv("BOOK"), *calls = getenv("CALLS"), *fail = getenv("FAIL");
  if (!book || strlen(book) > 4096 || !strchr(book, '/'))
    abort();
  sprintf(names[0], "%s", book);
  sprintf(names[1], "%s-wal", book);
  sprintf(names[2], "%.*s", (int)(strrchr(book, '/') - book), book);
  if (calls)
    notes = open(calls, O_CREAT | O_WRONLY | O_TRUNC | O_APPEND | O_CLOEXEC, 0600);
  if (fail && strchr(fail, ' ')) {
    failing = fail;
    left = atol(strchr(fail, ' '));
  }
}

static const char *word_of(const char *name) {
  for (int at = 0; at < 3; at++)
    if (strcmp(name, names[at]) == 0)
      return words[at];
  return NULL;
}

/* Which file of the book a descriptor is; NULL where it is none. */
static const char *file_of(int fd) {
  char place[32], name[4200];
  snprintf(place, sizeof place, "/proc/self/fd/%d", fd);
  ssize_t length = readlink(place, name, sizeof name - 1);
  if (length < 0)
    return NULL;
  name[length] = 0;
  return word_of(name);
}

static void note(const char *what, const char *file, long at, const void *bytes, size_t count) {
  char line[96];
  if (!file || notes < 0)
    return;
  int length = snprintf(line, sizeof line, "%s %s %ld %zu\n", what, file, at, count);
  struct iovec parts[] = {{line, length}, {(void *)bytes, count}};
  if (syscall(SYS_writev, notes, parts, 2) != (ssize_t)(length + count))
    abort();
}

/* Whether a call of this file fails. */
static int fails(const char *file) {
  if (!file || strcmp(file, "folder") == 0)
    return 0;
  if (!strstr(failing, file))
    return 0;
  if (left > 0) {
    left--;
    return 0;
  }
  note("fail", file, 0, NULL, 0);
  errno = EIO;
  return 1;
}

ssize_t pwrite(int fd, const void *bytes, size_t count, off_t at) {
  const char *file = file_of(fd);
  if (fails(file))
    return -1;
  ssize_t made = syscall(SYS_pwrite64, fd, bytes, count, at);
  if (made > 0)
    note("write", file, at, bytes, made);
  return made;
}

ssize_t pwrite64(int fd, const void *bytes, size_t count, off64_t at) { return pwrite(fd, bytes, count, at); }

ssize_t pread(int fd, void *bytes, size_t count, off_t at) {
  const char *file = file_of(fd);
  if (fails(file))
    return -1;
  note("read", file, at, NULL, 0);
  return syscall(SYS_pread64, fd, bytes, count, at);
}

ssize_t pread64(int fd, void *bytes, size_t count, off64_t at) { return pread(fd, bytes, count, at); }

int statx(int fd, const char *restrict path, int flags, unsigned mask, struct statx *restrict found) {
  const char *file = *path ? NULL : file_of(fd);
  if (fails(file))
    return -1;
  note("look", file, 0, NULL, 0);
  return syscall(SYS_statx, fd, path, flags, mask, found);
}

int ftruncate(int fd, off_t length) {
  const char *file = file_of(fd);
  if (fails(file))
    return -1;
  int made = syscall(SYS_ftruncate, fd, length);
  if (made == 0)
    note("cut", file, length, NULL, 0);
  return made;
}

int ftruncate64(int fd, off64_t length) { return ftruncate(fd, length); }

static int synced(long number, int fd) {
  const char *file = file_of(fd);
  if (fails(file))
    return -1;
  int made = syscall(number, fd);
  if (made == 0)
    note("sync", file, 0, NULL, 0);
  return made;
}

int fsync(int fd) { return synced(SYS_fsync, fd); }

int fdatasync(int fd) { return synced(SYS_fdatasync, fd); }

int unlink(const char *name) {
  int made = syscall(SYS_unlink, name);
  if (made == 0)
    note("remove", word_of(name), 0, NULL, 0);
  return made;
}

ssize_t write(int fd, const void *bytes, size_t count) {
  const char *file = file_of(fd);
  if (file)
    abort();
  ssize_t made = syscall(SYS_write, fd, bytes, count);
  if (made > 0 && (fd == 1 || fd == 2))
    note("say", fd == 1 ? "output" : "error", 0, bytes, made);
  return made;
}
