/* A library that is loaded before a program, and lets its requests for memory fail, each in turn.

   It counts the calls of malloc, calloc and realloc. At each of them it forks a child in which that call fails, and one
   in which that and all later ones fail. What a child writes goes nowhere, and is compared with what an undisturbed
   run wrote: the files REQUESTS_OUT and REQUESTS_ERR. Where the first child makes no later call, it stands for the
   second: the two would do the same. REQUESTS_LOG gets a line for each child: the number of the call,
   `once` or `on`, the status or minus the signal, how many bytes of output, of the output `same`, `whole` (nothing, or
   a front that ends just before the first line of a section or of the summary) or `other`, and of the error stream
   `none`, `same`, `memory` or `other`; and at the end a line `calls N`. With REQUESTS_STEP=K only each K-th call is
   tried, and with 0 none is. With REQUESTS_AT=N there are no children: the N-th call of the program itself fails, and
   with REQUESTS_ON=1 all later ones do, too.
   Linux with the GNU C library. */
#define _GNU_SOURCE
#include <errno.h>
#include <fcntl.h>
#include <stdio.h>
#include <stdlib.h>
#include <string.h>
#include <sys/mman.h>
#include <sys/resource.h>
#include <sys/stat.h>
#include <sys/syscall.h>
#include <sys/wait.h>
#include <unistd.h>

#define SECONDS 60 /* how much of a processor a child may take: by the clock it may have to wait for one */
#define SAID 200   /* bytes of what a child tells its parent */
#define LOG 200    /* where the log's descriptor stands, out of the program's way */
#define LINE "basin: want of memory\n"

extern void *__libc_malloc(size_t);
extern void *__libc_calloc(size_t, size_t);
extern void *__libc_realloc(void *, size_t);

enum stream { OUTPUT = 1, ERRORS = 2 };

/* A text that is wanted, how much was written in its place, and whether that isn't a front of it. */
struct text {
  const char *bytes;
  size_t length, written;
  int is_other;
};

enum role { ASLEEP, PARENT, CHILD };

static enum role role = ASLEEP;
static int fails_on; /* whether all later calls fail, too */
static unsigned long calls, step, failing_at;
static struct text of_output, of_errors, of_memory = {LINE, sizeof LINE - 1, 0, 0};
static struct said {
  unsigned long later; /* calls behind the one that failed */
  char end[SAID];
} *said; /* shared by a child and its parent */

static void read_wanted(const char *name, struct text *text) {
  const char *path = getenv(name);
  int file = path ? open(path, O_RDONLY | O_CLOEXEC) : -1;
  struct stat about;
  if (file < 0) return;
  if (!fstat(file, &about) && about.st_size) {
    text->length = about.st_size;
    text->bytes = mmap(0, text->length, PROT_READ, MAP_PRIVATE, file, 0);
  }
  close(file);
}

__attribute__((constructor)) static void begin(void) {
  const char *path = getenv("REQUESTS_LOG"), *each = getenv("REQUESTS_STEP"), *at = getenv("REQUESTS_AT");
  int file = path ? open(path, O_WRONLY | O_CREAT | O_APPEND, 0644) : -1;
  if (file < 0) return;
  fcntl(file, F_DUPFD_CLOEXEC, LOG);
  close(file);
  read_wanted("REQUESTS_OUT", &of_output);
  read_wanted("REQUESTS_ERR", &of_errors);
  said = mmap(0, sizeof *said, PROT_READ | PROT_WRITE, MAP_SHARED | MAP_ANONYMOUS, -1, 0);
  step = each ? strtoul(each, 0, 10) : 1;
  failing_at = at ? strtoul(at, 0, 10) : 0;
  if (failing_at) fails_on = getenv("REQUESTS_ON") != 0, step = 0;
  calls = 0;
  role = PARENT;
}

/* Compares what is written with the next bytes of a text: so each byte is looked at once, and none is kept. */
static void compare(struct text *text, const char *bytes, size_t length) {
  text->is_other = text->is_other || text->written + length > text->length ||
                   memcmp(text->bytes + text->written, bytes, length);
  text->written += length;
}

static int is_whole(const struct text *text) { return !text->is_other && text->written == text->length; }

/* Whether a part of the wanted output begins at this place. */
static int is_part_at(size_t place) {
  static const char *const parts[] = {"# batch ", "# trace ", "# summary "};
  for (size_t part = 0; part < sizeof parts / sizeof *parts; part++) {
    size_t length = strlen(parts[part]);
    if (place + length <= of_output.length && !memcmp(of_output.bytes + place, parts[part], length)) return 1;
  }
  return 0;
}

static const char *output(void) {
  if (of_output.is_other) return "other";
  if (is_whole(&of_output)) return "same";
  return !of_output.written || is_part_at(of_output.written) ? "whole" : "other";
}

static const char *errors(void) {
  if (!of_errors.written) return "none";
  return is_whole(&of_errors) ? "same" : is_whole(&of_memory) ? "memory" : "other";
}

__attribute__((destructor)) static void end(void) {
  enum role was = role;
  role = ASLEEP;
  if (was == PARENT) dprintf(LOG, "calls %lu\n", calls);
  if (was == CHILD) snprintf(said->end, SAID, "%zu %s %s", of_output.written, output(), errors());
}

static void note(const char *how, int ended) { dprintf(LOG, "%lu %s %d %s\n", calls, how, ended, said->end); }

/* Whether this is the child, in which the call is to fail. The parent waits for it, and writes its line. */
static int forked(int on) {
  int status = 0;
  role = ASLEEP;
  said->later = 0;
  strcpy(said->end, "0 unended none");
  pid_t child = fork();
  if (child == 0) {
    role = CHILD;
    fails_on = on;
    setrlimit(RLIMIT_CPU, &(struct rlimit){SECONDS, SECONDS});
    return 1;
  }
  if (child > 0) waitpid(child, &status, 0);
  int ended = child < 0 ? -1000 : WIFEXITED(status) ? WEXITSTATUS(status) : -WTERMSIG(status);
  note(on ? "on" : "once", ended);
  if (!on && !said->later) note("on", ended);
  role = PARENT;
  return 0;
}

/* Whether a call for memory is to fail. */
static int fails(void) {
  int failing = 0;
  if (role == CHILD) said->later++, failing = fails_on;
  if (role == PARENT) {
    calls++;
    if (failing_at) failing = fails_on ? calls >= failing_at : calls == failing_at;
    else failing = step && (calls - 1) % step == 0 && (forked(0) || (said->later && forked(1)));
  }
  if (failing) errno = ENOMEM;
  return failing;
}

void *malloc(size_t size) { return fails() ? 0 : __libc_malloc(size); }
void *calloc(size_t count, size_t size) { return fails() ? 0 : __libc_calloc(count, size); }
void *realloc(void *block, size_t size) { return fails() ? 0 : __libc_realloc(block, size); }

ssize_t write(int file, const void *bytes, size_t length) {
  int is_told = role != ASLEEP && (file == OUTPUT || file == ERRORS);
  if (is_told && file == OUTPUT) compare(&of_output, bytes, length);
  if (is_told && file == ERRORS) compare(&of_errors, bytes, length), compare(&of_memory, bytes, length);
  return is_told && role == CHILD ? (ssize_t)length : syscall(SYS_write, file, bytes, length);
}
