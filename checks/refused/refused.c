/* Refuses calls of the C library, to be loaded before it: the Nth of a kind, and with EVERY set
   each later one too.

   REFUSE is the kind, a colon and N: `memory` (malloc and realloc: none left), `disk` (reads, writes,
   syncs and cuts: input/output error), `new` (files that are opened or made: no permission). The
   file that MET names is made at the first refusal.
*/
#define _GNU_SOURCE
#include <errno.h>
#include <fcntl.h>
#include <stdarg.h>
#include <stdlib.h>
#include <string.h>
#include <sys/syscall.h>
#include <sys/types.h>
#include <unistd.h>

extern void *__libc_malloc(size_t);
extern void *__libc_realloc(void *, size_t);

static const char *kind = "", *mark;
static long nth, count;
static int every;

__attribute__((constructor)) static void begin(void) {
  const char *refuse = getenv("REFUSE"), *colon = refuse ? strchr(refuse, ':') : NULL;
  if (!colon) return;
  mark = getenv("MET");
  every = getenv("EVERY") != NULL;
  nth = atol(colon + 1);
  kind = refuse[0] == 'm' ? "memory" : refuse[0] == 'n' ? "new" : "disk";
}

/* Whether this call of a kind is refused. */
static int refused(const char *which) {
  if (strcmp(kind, which) != 0) return 0;
  count++;
  if (count < nth || (count > nth && !every)) return 0;
  if (count == nth)
    syscall(SYS_close, syscall(SYS_openat, AT_FDCWD, mark, O_CREAT | O_WRONLY, 0600));
  return 1;
}

void *malloc(size_t size) {
  if (!refused("memory")) return __libc_malloc(size);
  errno = ENOMEM;
  return NULL;
}

void *realloc(void *block, size_t size) {
  if (!refused("memory")) return __libc_realloc(block, size);
  errno = ENOMEM;
  return NULL;
}

static long failed(void) {
  errno = EIO;
  return -1;
}

#define DISK(call) (refused("disk") ? failed() : (call))

ssize_t read(int file, void *bytes, size_t size) {
  return DISK(syscall(SYS_read, file, bytes, size));
}
ssize_t write(int file, const void *bytes, size_t size) {
  return DISK(syscall(SYS_write, file, bytes, size));
}
ssize_t __write(int file, const void *bytes, size_t size) { return write(file, bytes, size); }
ssize_t pread(int file, void *bytes, size_t size, off_t at) {
  return DISK(syscall(SYS_pread64, file, bytes, size, at));
}
ssize_t pwrite(int file, const void *bytes, size_t size, off_t at) {
  return DISK(syscall(SYS_pwrite64, file, bytes, size, at));
}
ssize_t pread64(int file, void *bytes, size_t size, off64_t at) {
  return DISK(syscall(SYS_pread64, file, bytes, size, at));
}
ssize_t pwrite64(int file, const void *bytes, size_t size, off64_t at) {
  return DISK(syscall(SYS_pwrite64, file, bytes, size, at));
}
int fsync(int file) { return DISK(syscall(SYS_fsync, file)); }
int fdatasync(int file) { return DISK(syscall(SYS_fdatasync, file)); }
int ftruncate(int file, off_t size) { return DISK(syscall(SYS_ftruncate, file, size)); }
int ftruncate64(int file, off64_t size) { return DISK(syscall(SYS_ftruncate, file, size)); }
int open(const char *path, int flags, ...) {
  int mode = 0;
  if (flags & O_CREAT) {
    va_list more;
    va_start(more, flags);
    mode = va_arg(more, int);
    va_end(more);
    if (refused("new")) {
      errno = EACCES;
      return -1;
    }
  }
  return (int)syscall(SYS_openat, AT_FDCWD, path, flags, mode);
}
