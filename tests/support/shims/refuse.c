/* Put in front of the C library by LD_PRELOAD, this refuses allocations of a process: calls of malloc, calloc
   and realloc. It gives no random bytes either.

   Where the variable REFUSED_ALLOCATION is N, it refuses the Nth. It then makes the file that REFUSAL_MARK names.

   Where REFUSALS is the front of a name, it refuses each in turn: at each call the process forks, the child goes on
   with the call refused, and the process waits for the child. What the children put out is appended to NAME.out, and
   what they say on standard error to NAME.err. For each child NAME.ended has a line: its status as of wait(2), how
   many bytes the process had put out and said before, and how many the child did. Standard output and standard error
   have to be files, and so has standard input where it is read. */
#include <errno.h>
#include <fcntl.h>
#include <stdio.h>
#include <stdlib.h>
#include <string.h>
#include <sys/stat.h>
#include <sys/wait.h>
#include <unistd.h>

/* The descriptors whose places are kept, those of what the children write, and the seconds that a child may take. */
enum { FILES = 16, OUT = 100, ERR = 101, ENDED = 102, SECONDS = 60 };

void *__libc_malloc(size_t size);
void *__libc_calloc(size_t count, size_t size);
void *__libc_realloc(void *block, size_t size);

/* The calls up to the one that is refused; 0 before the program begins, and after the refusal. */
static long left;

/* Whether each call is refused, in a child. */
static int each;

/* Opens the file of this name and end, to be written behind what it has, as this descriptor. */
static void open_as(int descriptor, const char *name, const char *end) {
  char path[256];
  snprintf(path, sizeof path, "%s.%s", name, end);
  int file = open(path, O_CREAT | O_WRONLY | O_APPEND, 0600);
  dup2(file, descriptor);
  close(file);
}

__attribute__((constructor)) static void begin(void) {
  const char *number = getenv("REFUSED_ALLOCATION"), *name = getenv("REFUSALS");
  if (number)
    left = atol(number);
  if (name) {
    open_as(OUT, name, "out");
    open_as(ERR, name, "err");
    open_as(ENDED, name, "ended");
    each = 1;
  }
}

static long size_of(int descriptor) {
  struct stat found;
  return fstat(descriptor, &found) == 0 ? (long)found.st_size : -1;
}

/* Whether this process is the child in which the call is refused. What the child reads, the process reads again. */
static int is_child(void) {
  off_t places[FILES];
  long out = size_of(OUT), err = size_of(ERR);
  for (int file = 0; file < FILES; file++)
    places[file] = lseek(file, 0, SEEK_CUR);
  pid_t child = fork();
  if (child == 0) {
    dup2(OUT, 1);
    dup2(ERR, 2);
    alarm(SECONDS);
    return 1;
  }
  int status = -1;
  waitpid(child, &status, 0);
  for (int file = 0; file < FILES; file++)
    if (places[file] >= 0)
      lseek(file, places[file], SEEK_SET);
  dprintf(ENDED, "%d %ld %ld %ld %ld\n", status, (long)places[1], (long)places[2], size_of(OUT) - out, size_of(ERR) - err);
  return 0;
}

static int is_refused(void) {
  if (each) {
    each = 0;
    if (!is_child()) {
      each = 1;
      return 0;
    }
  } else if (left == 0 || --left > 0) {
    return 0;
  }
  const char *mark = getenv("REFUSAL_MARK");
  if (mark)
    close(open(mark, O_CREAT | O_WRONLY, 0600));
  errno = ENOMEM;
  return 1;
}

/* Bytes that are taken at random, as the salts of a book's log, are the same in each run, and others at each call: runs that wrote the
   same leave files with the same bytes. */
int getentropy(void *bytes, size_t count) {
  static unsigned char calls;
  memset(bytes, ++calls, count);
  return 0;
}

void *malloc(size_t size) { return is_refused() ? NULL : __libc_malloc(size); }

void *calloc(size_t count, size_t size) {
  return is_refused() ? NULL : __libc_calloc(count, size);
}

void *realloc(void *block, size_t size) {
  return is_refused() ? NULL : __libc_realloc(block, size);
}
