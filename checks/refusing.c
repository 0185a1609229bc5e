/* Stands before the memory functions of the C library, counts their calls from 1, and refuses the call with the number
   in REFUSED, or each from the number in REFUSED_FROM on. At the program's end it tells on standard error how many
   calls there were, and how many of them it refused. */
#include <errno.h>
#include <stdio.h>
#include <stdlib.h>
#include <unistd.h>

extern void *__libc_malloc(size_t size);
extern void *__libc_calloc(size_t count, size_t size);
extern void *__libc_realloc(void *old, size_t size);

static unsigned long calls, refused, one, first;

static unsigned long number_in(const char *name) {
  const char *value = getenv(name);
  return value ? strtoul(value, NULL, 10) : 0;
}

static int is_refused(void) {
  if (calls == 0) {
    one = number_in("REFUSED");
    first = number_in("REFUSED_FROM");
  }
  calls++;
  if (calls != one && (first == 0 || calls < first)) return 0;
  refused++;
  errno = ENOMEM;
  return 1;
}

void *malloc(size_t size) { return is_refused() ? NULL : __libc_malloc(size); }

void *calloc(size_t count, size_t size) { return is_refused() ? NULL : __libc_calloc(count, size); }

void *realloc(void *old, size_t size) { return is_refused() ? NULL : __libc_realloc(old, size); }

__attribute__((destructor)) static void tell(void) {
  char line[80];
  int length = snprintf(line, sizeof line, "%lu allocations, %lu refused\n", calls, refused);
  if (length > 0 && write(2, line, (size_t)length) != length) _exit(99);
}
