/* Counts the calls of malloc, calloc and realloc from 1 on, and refuses the one that GROWTH_REFUSED numbers
 * and those behind it, GROWTH_COUNT in all. Each refusal writes a byte to the file GROWTH_TOLD.
 * fail-each-growth preloads it. */
#define _GNU_SOURCE
#include <errno.h>
#include <stddef.h>
#include <stdlib.h>
#include <unistd.h>

static long refused = -1, count, made;
static int told;

static long number_of(const char *name) {
  const char *text = getenv(name);
  return text ? strtol(text, NULL, 10) : 0;
}

static int is_refused(void) {
  if (refused < 0) {
    refused = number_of("GROWTH_REFUSED");
    count = number_of("GROWTH_COUNT");
    told = (int)number_of("GROWTH_TOLD");
  }
  long number = __atomic_add_fetch(&made, 1, __ATOMIC_SEQ_CST);
  if (refused == 0 || number < refused || number - refused >= count) return 0;
  if (told > 0 && write(told, "x", 1) != 1) _exit(99);
  errno = ENOMEM;
  return 1;
}

/* The C library's own. */
extern void *__libc_malloc(size_t);
extern void *__libc_calloc(size_t, size_t);
extern void *__libc_realloc(void *, size_t);

void *malloc(size_t size) { return is_refused() ? NULL : __libc_malloc(size); }

void *calloc(size_t count, size_t size) { return is_refused() ? NULL : __libc_calloc(count, size); }

void *realloc(void *old, size_t size) { return is_refused() ? NULL : __libc_realloc(old, size); }
