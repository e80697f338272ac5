// Loaded before the C library (LD_PRELOAD), writes each fsync and rename of a program into the file $CALLS, and kills it before a rename where $STOPS
// is set.
#define _GNU_SOURCE
#include <signal.h>
#include <stdio.h>
#include <stdlib.h>
#include <sys/syscall.h>
#include <unistd.h>

static void tell(const char *call, const char *name, const char *to) {
  FILE *calls = fopen(getenv("CALLS"), "a");
  fprintf(calls, "%s %s%s%s\n", call, name, *to ? " " : "", to);
  fclose(calls);
}

int fsync(int fd) {
  char link[32], name[4096];
  snprintf(link, sizeof link, "/proc/self/fd/%d", fd);
  ssize_t length = readlink(link, name, sizeof name - 1);
  name[length < 0 ? 0 : length] = 0;
  tell("fsync", name, "");
  return (int)syscall(SYS_fsync, fd);
}

int rename(const char *from, const char *to) {
  tell("rename", from, to);
  if (getenv("STOPS")) kill(getpid(), SIGKILL);
  return (int)syscall(SYS_rename, from, to);
}
