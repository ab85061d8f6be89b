/* To be loaded before the C library: no folder can be synced, and no file removed but one whose name
   ends with .part. Both are an input/output error. */
#define _GNU_SOURCE
#include <errno.h>
#include <fcntl.h>
#include <string.h>
#include <sys/stat.h>
#include <sys/syscall.h>
#include <unistd.h>

static int refused(void) {
  errno = EIO;
  return -1;
}

int fsync(int file) {
  struct stat found;
  if (!fstat(file, &found) && S_ISDIR(found.st_mode)) return refused();
  return syscall(SYS_fsync, file);
}

int unlink(const char *name) {
  size_t size = strlen(name);
  if (size < 5 || strcmp(name + size - 5, ".part")) return refused();
  return syscall(SYS_unlinkat, AT_FDCWD, name, 0);
}
