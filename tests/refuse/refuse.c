/* Loaded before the C library, it refuses one growth of the program: the one whose number, counted
   from 1, stands in the environment variable REFUSE. It then makes the file that REFUSED names, so
   that whoever ran the program knows that the growth was reached.

   A growth is a call of malloc, calloc or realloc. Only those that are made while `main` runs
   count: the dynamic linker and the C library may ask for memory while they start and end the
   program, and what they do then is not the program's. */
#define _GNU_SOURCE
#include <dlfcn.h>
#include <errno.h>
#include <fcntl.h>
#include <stdlib.h>
#include <unistd.h>

extern void *__libc_malloc(size_t size);
extern void *__libc_calloc(size_t count, size_t size);
extern void *__libc_realloc(void *block, size_t size);

typedef int Main(int, char **, char **);
typedef void Hook(void);
typedef int Start(Main *, int, char **, Hook *, Hook *, Hook *, void *);

static Main *program_main;
static int counting;
static unsigned long growths;
static unsigned long refused_growth;

static void leave_mark(void) {
  const char *path = getenv("REFUSED");
  int mark = path ? open(path, O_WRONLY | O_CREAT, 0600) : -1;
  if (mark >= 0)
    close(mark);
}

/* Whether the growth that is asked for now is the one to refuse. */
static int is_refused(void) {
  if (!counting || ++growths != refused_growth)
    return 0;
  leave_mark();
  errno = ENOMEM;
  return 1;
}

void *malloc(size_t size) {
  return is_refused() ? NULL : __libc_malloc(size);
}

void *calloc(size_t count, size_t size) {
  return is_refused() ? NULL : __libc_calloc(count, size);
}

void *realloc(void *block, size_t size) {
  return is_refused() ? NULL : __libc_realloc(block, size);
}

static int counted_main(int count, char **words, char **environment) {
  const char *number = getenv("REFUSE");
  refused_growth = number ? strtoul(number, NULL, 10) : 0;
  counting = 1;
  int status = program_main(count, words, environment);
  counting = 0;
  return status;
}

int __libc_start_main(Main *main, int count, char **words, Hook *init, Hook *fini, Hook *rtld_fini,
                      void *stack_end) {
  Start *start = (Start *)dlsym(RTLD_NEXT, "__libc_start_main");
  program_main = main;
  return start(counted_main, count, words, init, fini, rtld_fini, stack_end);
}
