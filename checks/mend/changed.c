/* To be loaded before the C library: as in.edf is opened for the time that AT says, other.edf gets its
   name first. */
#define _GNU_SOURCE
#include <dlfcn.h>
#include <fcntl.h>
#include <stdarg.h>
#include <stdio.h>
#include <stdlib.h>
#include <string.h>
#include <sys/syscall.h>
#include <unistd.h>

static int opened(int folder, const char *name, int flags, int mode) {
  static int count;
  size_t size = strlen(name);
  if (size >= 6 && !strcmp(name + size - 6, "in.edf") && ++count == atoi(getenv("AT")))
    rename("other.edf", "in.edf");
  return syscall(SYS_openat, folder, name, flags, mode);
}

#define MODE va_list rest; va_start(rest, flags); int mode = va_arg(rest, int); va_end(rest)

int open(const char *name, int flags, ...) { MODE; return opened(AT_FDCWD, name, flags, mode); }

int open64(const char *name, int flags, ...) { MODE; return opened(AT_FDCWD, name, flags, mode); }

int openat(int folder, const char *name, int flags, ...) {
  MODE;
  return opened(folder, name, flags, mode);
}

int openat64(int folder, const char *name, int flags, ...) {
  MODE;
  return opened(folder, name, flags, mode);
}
