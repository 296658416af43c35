// A malloc before the C library's: keeps how many bytes are in use, and notes them before each line of standard error that begins with
// `stats`, as one 64-bit number each, in the file LIVE, which has to be there and to be long enough.
#define _GNU_SOURCE
#include "../notes.h"
#include <dlfcn.h>
#include <malloc.h>
#include <string.h>
#include <sys/syscall.h>
static _Atomic int64_t live;
static int64_t size_of(void *room) { return (int64_t)malloc_usable_size(room); }
__attribute__((constructor)) static void begin(void) { open_notes("LIVE"); }
void *malloc(size_t size) {
  static void *(*real)(size_t);
  if (!real) real = dlsym(RTLD_NEXT, "malloc");
  void *room = real(size);
  live += size_of(room);
  return room;
}
void *realloc(void *old, size_t size) {
  static void *(*real)(void *, size_t);
  if (!real) real = dlsym(RTLD_NEXT, "realloc");
  int64_t before = size_of(old);
  void *room = real(old, size);
  if (room) live += size_of(room) - before;
  return room;
}
int posix_memalign(void **out, size_t align, size_t size) {
  static int (*real)(void **, size_t, size_t);
  if (!real) real = dlsym(RTLD_NEXT, "posix_memalign");
  int status = real(out, align, size);
  if (!status) live += size_of(*out);
  return status;
}
void free(void *old) {
  static void (*real)(void *);
  if (!real) real = dlsym(RTLD_NEXT, "free");
  live -= size_of(old);
  real(old);
}
ssize_t write(int file, const void *text, size_t size) {
  if (file == 2 && size >= 5 && !memcmp(text, "stats", 5) && next < end) *next++ = live;
  return syscall(SYS_write, file, text, size);
}
