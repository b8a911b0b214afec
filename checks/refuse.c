// Refuses one allocation of a program: that of the number in REFUSE, from 1. Where there is one, it makes the file named by REFUSED.
// Built and loaded by memory.py. Over glibc alone, whose own names it calls.
#include <errno.h>
#include <fcntl.h>
#include <stdatomic.h>
#include <stddef.h>
#include <stdlib.h>
#include <unistd.h>

void *__libc_malloc(size_t);
void *__libc_calloc(size_t, size_t);
void *__libc_realloc(void *, size_t);
void *__libc_memalign(size_t, size_t);

static atomic_long seen;
static long refused;

__attribute__((constructor)) static void begin(void) {
  const char *number = getenv("REFUSE");
  refused = number ? atol(number) : 0;
  seen = 0;
}

static int refuses(void) {
  if (atomic_fetch_add(&seen, 1) + 1 != refused) return 0;
  const char *name = getenv("REFUSED");
  int file = name ? open(name, O_CREAT | O_WRONLY, 0600) : -1;
  if (file >= 0) close(file);
  errno = ENOMEM;
  return 1;
}

void *malloc(size_t n) { return refuses() ? NULL : __libc_malloc(n); }
void *calloc(size_t n, size_t m) { return refuses() ? NULL : __libc_calloc(n, m); }
void *realloc(void *p, size_t n) { return refuses() ? NULL : __libc_realloc(p, n); }
void *memalign(size_t a, size_t n) { return refuses() ? NULL : __libc_memalign(a, n); }
void *aligned_alloc(size_t a, size_t n) { return memalign(a, n); }
int posix_memalign(void **p, size_t a, size_t n) {
  *p = memalign(a, n);
  return *p ? 0 : ENOMEM;
}
