/* Refuses one request for memory. Where the environment variable REFUSED is n, the n-th call of malloc or realloc of the
   process answers NULL, counted from 1; all others go to the C library. Loaded before it, by LD_PRELOAD. */
#include <errno.h>
#include <stdatomic.h>
#include <stddef.h>
#include <stdlib.h>

void *__libc_malloc(size_t size);
void *__libc_realloc(void *block, size_t size);

static atomic_long asked;

static int is_refused(void) {
  const char *number = getenv("REFUSED");
  if (number == NULL || atomic_fetch_add(&asked, 1) + 1 != atol(number)) {
    return 0;
  }
  errno = ENOMEM;
  return 1;
}

void *malloc(size_t size) {
  return is_refused() ? NULL : __libc_malloc(size);
}

void *realloc(void *block, size_t size) {
  return is_refused() ? NULL : __libc_realloc(block, size);
}
