// A read and a write before the C library's: note the clocks where the script is first read, and before each line of standard error
// that begins with `stats`. The notes go to the file MARKS, which has to be there and to be long enough: pairs of nanoseconds, those of
// the processor for all threads together, and those by the clock.
#define _GNU_SOURCE
#include "../notes.h"
#include <string.h>
#include <sys/syscall.h>
#include <time.h>
static int has_read;
static int64_t clock_of(clockid_t id) {
  struct timespec now;
  clock_gettime(id, &now);
  return (int64_t)now.tv_sec * 1000000000 + now.tv_nsec;
}
static void mark(void) {
  if (next + 2 > end) return;
  *next++ = clock_of(CLOCK_PROCESS_CPUTIME_ID);
  *next++ = clock_of(CLOCK_MONOTONIC);
}
__attribute__((constructor)) static void begin(void) { open_notes("MARKS"); }
ssize_t read(int file, void *room, size_t size) {
  if (file == 0 && !has_read) { has_read = 1; mark(); }
  return syscall(SYS_read, file, room, size);
}
ssize_t write(int file, const void *text, size_t size) {
  if (file == 2 && size >= 5 && !memcmp(text, "stats", 5)) mark();
  return syscall(SYS_write, file, text, size);
}
ssize_t __write(int file, const void *text, size_t size) { return write(file, text, size); }
