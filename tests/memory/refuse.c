/* Loaded into a program by LD_PRELOAD, this refuses one of its requests for memory: that whose number, from 1, is in the
   variable REFUSED. */
#define _GNU_SOURCE
#include <dlfcn.h>
#include <stdlib.h>

static unsigned long made;

static int is_refused(void) {
  static unsigned long refused;
  if (!refused) {
    const char *word = getenv("REFUSED");
    refused = word ? strtoul(word, NULL, 10) : -1UL;
  }
  return ++made == refused;
}

void *malloc(size_t size) {
  static void *(*next)(size_t);
  if (!next)
    next = (void *(*)(size_t))dlsym(RTLD_NEXT, "malloc");
  return is_refused() ? NULL : next(size);
}

void *realloc(void *block, size_t size) {
  static void *(*next)(void *, size_t);
  if (!next)
    next = (void *(*)(void *, size_t))dlsym(RTLD_NEXT, "realloc");
  return is_refused() ? NULL : next(block, size);
}
