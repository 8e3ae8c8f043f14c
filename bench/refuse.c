/* Stands before the C library's malloc, calloc and realloc in a program that is started with LD_PRELOAD, and refuses one
   request for memory: the one whose number, counted from 1, is in REFUSE. It then writes to the file that REFUSED names.
   Children of the program get all that they ask for. */
#include <errno.h>
#include <fcntl.h>
#include <stdlib.h>
#include <string.h>
#include <unistd.h>

extern void *__libc_malloc(size_t size);
extern void *__libc_calloc(size_t count, size_t size);
extern void *__libc_realloc(void *place, size_t size);

/* How many requests there are to the one that is refused, or 0 where none is. */
static unsigned long left;
static char mark[4096];

__attribute__((constructor)) static void begin(void) {
  const char *number = getenv("REFUSE");
  const char *name = getenv("REFUSED");
  if (number != NULL && name != NULL && strlen(name) < sizeof mark) {
    strcpy(mark, name);
    left = strtoul(number, NULL, 10);
  }
  unsetenv("LD_PRELOAD");
}

static int refuses(void) {
  if (left == 0 || --left > 0) return 0;
  int file = open(mark, O_CREAT | O_WRONLY, 0600);
  if (file < 0 || write(file, "refused\n", 8) != 8 || close(file) != 0) _exit(99);
  errno = ENOMEM;
  return 1;
}

void *malloc(size_t size) { return refuses() ? NULL : __libc_malloc(size); }

void *calloc(size_t count, size_t size) { return refuses() ? NULL : __libc_calloc(count, size); }

void *realloc(void *place, size_t size) { return refuses() ? NULL : __libc_realloc(place, size); }
