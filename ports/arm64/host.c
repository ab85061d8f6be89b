/* The C functions that the four programs call beside the C library, for a machine that the
   toolchain has none for. Each does what the toolchain's declaration of it says, in
   rattle/libc/src/heap.rt and rattle/os/src/c.rt there. The proofs assume that it does, and nothing
   proves it. */
#define _GNU_SOURCE
#include <errno.h>
#include <fcntl.h>
#include <stdbool.h>
#include <stddef.h>
#include <stdint.h>
#include <stdlib.h>
#include <sys/types.h>

/* What the declarations take for granted of the machine and its C library. */
_Static_assert(sizeof(size_t) == 8 && sizeof(off_t) == 8 && sizeof(int) == 4, "64 bits");
_Static_assert(_Alignof(max_align_t) == 16, "malloc serves each alignment that divides 16");
_Static_assert(F_RDLCK == 0 && F_WRLCK == 1 && F_UNLCK == 2, "the kinds of locks");

/* Whether there is memory, and where. If there is none, `p` points here, and nobody owns that. */
struct tried {
  bool ok;
  unsigned char *p;
};

static unsigned char nothing;

static struct tried tried(void *p) {
  return p ? (struct tried){true, p} : (struct tried){false, &nothing};
}

/* For 0 bytes malloc may answer no block, and realloc may free the one that it was given. */
static size_t at_least_1(size_t n) {
  return n ? n : 1;
}

struct tried rattle_alloc(size_t n, size_t alignment) {
  (void)alignment;
  return tried(malloc(at_least_1(n)));
}

struct tried rattle_realloc(unsigned char *p, size_t kept, size_t n, size_t alignment) {
  (void)kept;
  (void)alignment;
  return tried(realloc(p, at_least_1(n)));
}

void rattle_dealloc(unsigned char *p) {
  free(p);
}

int rattle_errno(void) {
  return errno;
}

void rattle_set_errno(int error) {
  errno = error;
}

static size_t count;
static char **words;

/* glibc gives a constructor what it gives main. */
__attribute__((constructor)) static void keep(int argc, char **argv) {
  count = argc < 0 ? 0 : (size_t)argc;
  words = argv;
}

/* The length of the text, whose bytes are then at the start of `to`. It is -1 where there is no
   text, and -2 where `room` is less than its length: then `to` is full. */
static ssize_t copied(const char *text, unsigned char *to, size_t room) {
  if (!text) {
    return -1;
  }
  size_t n = 0;
  for (; n < room && text[n]; n++) {
    to[n] = (unsigned char)text[n];
  }
  return text[n] ? -2 : (ssize_t)n;
}

ssize_t rattle_arg(size_t i, unsigned char *to, size_t room) {
  return copied(i < count ? words[i] : NULL, to, room);
}

/* The same of the value of a variable of the environment. */
ssize_t rattle_env(const char *name, unsigned char *to, size_t room) {
  return copied(getenv(name), to, room);
}

/* Locks or unlocks a range of what `fd` is open on, for that opening of it alone. */
int rattle_lock_range(int fd, int16_t kind, int64_t start, int64_t len) {
  struct flock range = {.l_type = kind, .l_whence = SEEK_SET, .l_start = start, .l_len = len};
  return fcntl(fd, F_OFD_SETLK, &range);
}
