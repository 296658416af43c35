// A malloc before the C library's: refuses the allocation whose number REFUSED gives, and makes the file REACHED then. How many there
// were is written to the file COUNTED, where the program ends by the C library's `exit`.
#define _GNU_SOURCE
#include <dlfcn.h>
#include <errno.h>
#include <fcntl.h>
#include <stdio.h>
#include <stdlib.h>
#include <unistd.h>
static long count, refused = -1;
static int refuses(void) {
  if (refused < 0) { const char *text = getenv("REFUSED"); refused = text ? atol(text) : 0; }
  if (__atomic_add_fetch(&count, 1, __ATOMIC_RELAXED) != refused) return 0;
  const char *name = getenv("REACHED");
  int file = name ? open(name, O_CREAT | O_WRONLY, 0600) : -1;
  if (file >= 0) close(file);
  return 1;
}
void *malloc(size_t size) {
  static void *(*real)(size_t);
  if (!real) real = dlsym(RTLD_NEXT, "malloc");
  if (refuses()) { errno = ENOMEM; return 0; }
  return real(size);
}
void *realloc(void *old, size_t size) {
  static void *(*real)(void *, size_t);
  if (!real) real = dlsym(RTLD_NEXT, "realloc");
  if (refuses()) { errno = ENOMEM; return 0; }
  return real(old, size);
}
int posix_memalign(void **out, size_t align, size_t size) {
  static int (*real)(void **, size_t, size_t);
  if (!real) real = dlsym(RTLD_NEXT, "posix_memalign");
  return refuses() ? ENOMEM : real(out, align, size);
}
__attribute__((destructor)) static void tell(void) {
  const char *name = getenv("COUNTED");
  FILE *file = name ? fopen(name, "w") : 0;
  if (file) { fprintf(file, "%ld\n", count); fclose(file); }
}
