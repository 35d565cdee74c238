/* Loaded before the C library, it has a signal interrupt the program, as it seems: of each two
   calls of read, and of each two of write, the first fails with EINTR. */
#define _GNU_SOURCE
#include <dlfcn.h>
#include <errno.h>
#include <unistd.h>

typedef ssize_t Read(int, void *, size_t);
typedef ssize_t Write(int, const void *, size_t);

/* Whether the call that is made now is the first of two. */
static int is_interrupted(unsigned *calls) {
  if ((*calls)++ % 2)
    return 0;
  errno = EINTR;
  return 1;
}

ssize_t read(int file, void *bytes, size_t size) {
  static unsigned calls;
  return is_interrupted(&calls) ? -1 : ((Read *)dlsym(RTLD_NEXT, "read"))(file, bytes, size);
}

ssize_t write(int file, const void *bytes, size_t size) {
  static unsigned calls;
  return is_interrupted(&calls) ? -1 : ((Write *)dlsym(RTLD_NEXT, "write"))(file, bytes, size);
}
