/* A library to be loaded before the C library: it refuses the N-th allocation of a program (REFUSE=N), or all from the N-th on
   (REFUSE=N FROM=1). See tools/refuse-memory.

   cc -shared -fPIC -O2 -o refuse_memory.so tools/refuse_memory.c -ldl */
#define _GNU_SOURCE
#include <dlfcn.h>
#include <stdlib.h>

static unsigned long count;

static int refused(void) {
  const char *at = getenv("REFUSE");
  unsigned long n = at ? strtoul(at, 0, 10) : 0;
  count++;
  return n != 0 && (getenv("FROM") ? count >= n : count == n);
}

void *malloc(size_t size) {
  static void *(*real)(size_t);
  if (!real) real = (void *(*)(size_t))dlsym(RTLD_NEXT, "malloc");
  return refused() ? 0 : real(size);
}

void *realloc(void *at, size_t size) {
  static void *(*real)(void *, size_t);
  if (!real) real = (void *(*)(void *, size_t))dlsym(RTLD_NEXT, "realloc");
  return refused() ? 0 : real(at, size);
}

int posix_memalign(void **at, size_t align, size_t size) {
  static int (*real)(void **, size_t, size_t);
  if (!real) real = (int (*)(void **, size_t, size_t))dlsym(RTLD_NEXT, "posix_memalign");
  return refused() ? 12 : real(at, align, size);
}
