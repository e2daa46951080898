/* A library that is loaded before a program, and lets one of its calls of the system fail.

   CALLS_OF=open|read|write|close  which calls are counted, from 1; of writes only those to the descriptor CALLS_FILE
   CALLS_AT=N                      the N-th of them fails; with CALLS_ON=1 all later ones fail, too
   CALLS_HOW=EIO|ENOSPC|..         how: an error by its name; `zero`: it answers 0 at once; `one`: at most one byte
   CALLS_LOG=FILE                  gets a line at the end: how many were counted, and the path of the one that failed
   Linux with the GNU C library. */
#define _GNU_SOURCE
#include <errno.h>
#include <fcntl.h>
#include <stdarg.h>
#include <stdio.h>
#include <stdlib.h>
#include <string.h>
#include <sys/syscall.h>
#include <sys/uio.h>
#include <unistd.h>

#define FILES 64 /* descriptors whose paths are known */

enum turn { GO_ON, FAIL, ZERO, ONE };

static const struct {
  const char *name;
  int number;
} ERRORS[] = {
    {"EIO", EIO},       {"EINTR", EINTR},   {"ENOSPC", ENOSPC}, {"EPIPE", EPIPE}, {"EAGAIN", EAGAIN},
    {"ENOMEM", ENOMEM}, {"EMFILE", EMFILE}, {"EACCES", EACCES}, {"EFBIG", EFBIG}, {"EDQUOT", EDQUOT},
    {"EISDIR", EISDIR}, {"ESTALE", ESTALE},
};

static const char *counted, *how, *failed = "";
static char *paths[FILES];
static long at, on, only = -1, seen;

static long number(const char *name, long otherwise) {
  const char *word = getenv(name);
  return word ? atol(word) : otherwise;
}

__attribute__((constructor)) static void begin(void) {
  counted = getenv("CALLS_OF");
  how = getenv("CALLS_HOW");
  at = number("CALLS_AT", 0);
  on = number("CALLS_ON", 0);
  only = number("CALLS_FILE", -1);
}

__attribute__((destructor)) static void end(void) {
  const char *path = getenv("CALLS_LOG");
  char line[4200];
  if (!path) return;
  int file = syscall(SYS_openat, AT_FDCWD, path, O_WRONLY | O_CREAT | O_TRUNC, 0644);
  int length = snprintf(line, sizeof line, "%ld %.4000s\n", seen, failed);
  syscall(SYS_write, file, line, length);
  syscall(SYS_close, file);
}

static enum turn turn_of(const char *name, int file, const char *path) {
  if (!counted || strcmp(counted, name) || (only >= 0 && file != only)) return GO_ON;
  seen++;
  if (!at || !how || !(seen == at || (on && seen > at))) return GO_ON;
  if (!*failed && path) failed = strdup(path);
  if (!strcmp(how, "zero")) return ZERO;
  if (!strcmp(how, "one")) return ONE;
  for (size_t i = 0; i < sizeof ERRORS / sizeof *ERRORS; i++)
    if (!strcmp(how, ERRORS[i].name)) errno = ERRORS[i].number;
  return FAIL;
}

static const char *path_of(int file) { return file >= 0 && file < FILES ? paths[file] : 0; }

static int opened(int folder, const char *path, int flags, int mode) {
  if (turn_of("open", -1, path) == FAIL) return -1;
  int file = syscall(SYS_openat, folder, path, flags, mode);
  if (file >= 0 && file < FILES) paths[file] = strdup(path);
  return file;
}

static int mode_of(int flags, va_list more) { return flags & O_CREAT ? va_arg(more, int) : 0; }

int open(const char *path, int flags, ...) {
  va_list more;
  va_start(more, flags);
  int mode = mode_of(flags, more);
  va_end(more);
  return opened(AT_FDCWD, path, flags, mode);
}

int open64(const char *path, int flags, ...) {
  va_list more;
  va_start(more, flags);
  int mode = mode_of(flags, more);
  va_end(more);
  return opened(AT_FDCWD, path, flags, mode);
}

int openat(int folder, const char *path, int flags, ...) {
  va_list more;
  va_start(more, flags);
  int mode = mode_of(flags, more);
  va_end(more);
  return opened(folder, path, flags, mode);
}

ssize_t read(int file, void *bytes, size_t room) {
  enum turn turn = turn_of("read", file, path_of(file));
  if (turn == FAIL) return -1;
  if (turn == ZERO) return 0;
  return syscall(SYS_read, file, bytes, turn == ONE && room > 1 ? 1 : room);
}

ssize_t write(int file, const void *bytes, size_t length) {
  enum turn turn = turn_of("write", file, 0);
  if (turn == FAIL) return -1;
  if (turn == ZERO) return 0;
  return syscall(SYS_write, file, bytes, turn == ONE && length > 1 ? 1 : length);
}

ssize_t writev(int file, const struct iovec *parts, int count) {
  enum turn turn = turn_of("write", file, 0);
  if (turn == FAIL) return -1;
  if (turn == ZERO) return 0;
  return syscall(SYS_writev, file, parts, count);
}

int close(int file) {
  enum turn turn = turn_of("close", file, path_of(file));
  int reason = errno, done = syscall(SYS_close, file);
  if (turn != FAIL) return done;
  errno = reason;
  return -1;
}
