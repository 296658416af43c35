// Where a program that is measured notes numbers: a file, which has to be there and to be long enough.
#pragma once
#include <fcntl.h>
#include <stdint.h>
#include <stdlib.h>
#include <sys/mman.h>
#include <sys/stat.h>
#include <unistd.h>
static int64_t *next, *end;
// Opens the file that this variable of the environment names; without one nothing is noted.
static void open_notes(const char *variable) {
  const char *name = getenv(variable);
  int file = name ? open(name, O_RDWR) : -1;
  struct stat found;
  if (file < 0 || fstat(file, &found)) return;
  void *room = mmap(0, (size_t)found.st_size, PROT_READ | PROT_WRITE, MAP_SHARED, file, 0);
  if (room != MAP_FAILED) { next = room; end = next + found.st_size / sizeof *next; }
  close(file);
}
