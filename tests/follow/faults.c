/* Loaded before the C library, it has one call of the program go wrong, of those that read standard
   input or of those that write to standard output. FAULT has three words: `read` or `write`; the
   number of the call, counted from 1; and how it goes: `part`, with half of the bytes, but one at
   least; `none`, with no byte; or the number of the error that it fails with. A read of standard
   input has at most PIECE bytes. */
#define _GNU_SOURCE
#include <dlfcn.h>
#include <errno.h>
#include <stdio.h>
#include <stdlib.h>
#include <string.h>
#include <unistd.h>

typedef ssize_t Read(int, void *, size_t);
typedef ssize_t Write(int, const void *, size_t);

/* How many bytes the call of this number and this size takes, or -1 with the error. */
static ssize_t taken(const char *name, unsigned long number, size_t size) {
  const char *fault = getenv("FAULT");
  char of[8] = "", how[8] = "";
  unsigned long at = 0;
  if (!fault || sscanf(fault, "%7s %lu %7s", of, &at, how) != 3)
    return (ssize_t)size;
  if (strcmp(of, name) || number != at)
    return (ssize_t)size;
  if (!strcmp(how, "part"))
    return (ssize_t)(size > 1 ? size / 2 : size);
  if (!strcmp(how, "none"))
    return 0;
  errno = atoi(how);
  return -1;
}

ssize_t read(int file, void *bytes, size_t size) {
  static unsigned long calls;
  Read *next = (Read *)dlsym(RTLD_NEXT, "read");
  const char *piece = getenv("PIECE");
  if (file != STDIN_FILENO)
    return next(file, bytes, size);
  if (piece && size > strtoul(piece, NULL, 10))
    size = strtoul(piece, NULL, 10);
  ssize_t count = taken("read", ++calls, size);
  return count > 0 ? next(file, bytes, (size_t)count) : count;
}

ssize_t write(int file, const void *bytes, size_t size) {
  static unsigned long calls;
  Write *next = (Write *)dlsym(RTLD_NEXT, "write");
  if (file != STDOUT_FILENO)
    return next(file, bytes, size);
  ssize_t count = taken("write", ++calls, size);
  return count > 0 ? next(file, bytes, (size_t)count) : count;
}
