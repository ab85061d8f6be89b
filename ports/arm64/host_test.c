/* What the eight functions of host.c answer, beside what the toolchain's declarations and fcntl(2)
   say of them. The program's own words are the cases of the arguments. Its last line is
   `N tried, M failed`, and its status is 0 where none failed. */
#define _GNU_SOURCE
#include <errno.h>
#include <fcntl.h>
#include <malloc.h>
#include <stdbool.h>
#include <stdint.h>
#include <stdio.h>
#include <stdlib.h>
#include <string.h>
#include <unistd.h>

struct tried {
  bool ok;
  unsigned char *p;
};

struct tried rattle_alloc(size_t n, size_t alignment);
struct tried rattle_realloc(unsigned char *p, size_t kept, size_t n, size_t alignment);
void rattle_dealloc(unsigned char *p);
int rattle_errno(void);
void rattle_set_errno(int error);
ssize_t rattle_arg(size_t i, unsigned char *to, size_t room);
ssize_t rattle_env(const char *name, unsigned char *to, size_t room);
int rattle_lock_range(int fd, int16_t kind, int64_t start, int64_t len);

enum { ROOM = 4096, READ = 0, WRITE = 1, NONE = 2, UNKNOWN = 9, NO_FILE = 999 };
static const size_t TOO_MUCH = (size_t)1 << 62;
static int done, failed;

static void same(const char *what, long got, long wanted) {
  done++;
  if (got != wanted) {
    failed++;
    printf("%s: %ld, and not %ld\n", what, got, wanted);
  }
}

/* Whether the `n` bytes at `p` are all `byte`. */
static bool all(const unsigned char *p, unsigned char byte, size_t n) {
  for (size_t i = 0; i < n; i++) {
    if (p[i] != byte) {
      return false;
    }
  }
  return true;
}

static void block(size_t n, size_t alignment) {
  struct tried one = rattle_alloc(n, alignment), other = rattle_alloc(n, alignment);
  same("alloc: there is memory", one.ok && one.p && other.ok && other.p, true);
  same("alloc: aligned", (uintptr_t)one.p % alignment + (uintptr_t)other.p % alignment, 0);
  same("alloc: two blocks", one.p != other.p, true);
  memset(one.p, 1, n);
  memset(other.p, 2, n);
  struct tried more = rattle_realloc(one.p, n, 3 * n, alignment);
  same("realloc: longer", more.ok && more.p && all(more.p, 1, n), true);
  memset(more.p, 3, 3 * n);
  same("alloc: another block", all(other.p, 2, n), true);
  struct tried none = rattle_realloc(more.p, 3 * n, TOO_MUCH, alignment);
  same("realloc: no memory", none.ok, false);
  same("realloc: some pointer", none.p != NULL, true);
  same("realloc: as it was", all(more.p, 3, 3 * n), true);
  struct tried less = rattle_realloc(more.p, n / 2, n / 2, alignment);
  same("realloc: shorter", less.ok && less.p && all(less.p, 3, n / 2), true);
  rattle_dealloc(less.p);
  rattle_dealloc(other.p);
}

static void heap(void) {
  for (size_t n = 0; n <= 1 << 20; n = 4 * n + 1) {
    for (size_t alignment = 1; alignment <= 16; alignment *= 2) {
      block(n, alignment);
    }
  }
  struct tried none = rattle_alloc(TOO_MUCH, 8);
  same("alloc: no memory", none.ok, false);
  same("alloc: some pointer", none.p != NULL, true);
}

/* Bytes that are in use may be freed, and not one may stay. */
static void freed(void) {
  size_t before = mallinfo2().uordblks;
  for (int i = 0; i < 100; i++) {
    rattle_dealloc(rattle_alloc(1 << 16, 16).p);
  }
  same("dealloc: what stays in use", (long)(mallinfo2().uordblks - before), 0);
}

static void numbers(void) {
  errno = ENOSPC;
  same("errno", rattle_errno(), ENOSPC);
  rattle_set_errno(ELOOP);
  same("set_errno", errno, ELOOP);
  rattle_set_errno(0);
  same("set_errno to none", rattle_errno(), 0);
}

/* A word by its number, or a variable by its name. */
struct text {
  size_t word;
  const char *variable;
};

static ssize_t copied(struct text from, unsigned char *to, size_t room) {
  return from.variable ? rattle_env(from.variable, to, room) : rattle_arg(from.word, to, room);
}

static void text(struct text from, const char *it) {
  size_t length = strlen(it);
  for (size_t room = 0; room <= length + 1; room++) {
    unsigned char to[ROOM];
    memset(to, 7, ROOM);
    size_t put = room < length ? room : length;
    same("text: its length", copied(from, to, room), room < length ? -2 : (long)length);
    same("text: its bytes", memcmp(to, it, put), 0);
    same("text: the bytes behind the room", all(to + room, 7, ROOM - room), true);
  }
}

static void words(int argc, char **argv) {
  unsigned char to[ROOM];
  for (int i = 0; i < argc; i++) {
    text((struct text){(size_t)i, NULL}, argv[i]);
  }
  same("arg: the one after the last", rattle_arg((size_t)argc, to, ROOM), -1);
  same("arg: one far behind", rattle_arg(SIZE_MAX, to, ROOM), -1);
}

/* The words are values of a variable too. */
static void variables(int argc, char **argv) {
  unsigned char to[ROOM];
  for (int i = 0; i < argc; i++) {
    setenv("HOST_TEST", argv[i], true);
    text((struct text){0, "HOST_TEST"}, argv[i]);
    same("env: of another name", rattle_env("HOST_TES", to, ROOM), -1);
  }
  unsetenv("HOST_TEST");
  same("env: of none", rattle_env("HOST_TEST", to, ROOM), -1);
}

/* Of a file that is open three times: 0 and 1 for reading and writing, 2 for reading. */
static const struct {
  const char *what;
  int file, kind;
  int64_t start, len;
  int status, error;
} LOCKS[] = {
    {"lock: a byte", 0, WRITE, 0, 1, 0, 0},
    {"lock: the same again", 0, WRITE, 0, 1, 0, 0},
    {"lock: to read what is locked", 1, READ, 0, 1, -1, EAGAIN},
    {"lock: a range with it", 1, WRITE, 0, 10, -1, EAGAIN},
    {"lock: the range beside it", 1, WRITE, 1, 10, 0, 0},
    {"lock: the last of that", 0, WRITE, 10, 1, -1, EAGAIN},
    {"lock: the first behind that", 0, WRITE, 11, 1, 0, 0},
    {"lock: to read now", 0, READ, 0, 1, 0, 0},
    {"lock: two that read", 1, READ, 0, 1, 0, 0},
    {"lock: to write what two read", 1, WRITE, 0, 1, -1, EAGAIN},
    {"lock: no more", 0, NONE, 0, 1, 0, 0},
    {"lock: to write what one reads", 1, WRITE, 0, 1, 0, 0},
    {"lock: to write a file open to read", 2, WRITE, 100, 1, -1, EBADF},
    {"lock: to read it", 2, READ, 100, 1, 0, 0},
    {"lock: the last byte of all", 0, WRITE, INT64_MAX, 1, 0, 0},
    {"lock: one more", 0, WRITE, INT64_MAX, 2, -1, EOVERFLOW},
    {"lock: before the first", 0, WRITE, -1, 1, -1, EINVAL},
    {"lock: of no kind", 0, UNKNOWN, 0, 1, -1, EINVAL},
    {"lock: of no file", NO_FILE, WRITE, 0, 1, -1, EBADF},
};

static void locks(void) {
  char name[] = "host_test.XXXXXX";
  int files[] = {mkstemp(name), open(name, O_RDWR), open(name, O_RDONLY)};
  unlink(name);
  for (size_t i = 0; i < sizeof LOCKS / sizeof *LOCKS; i++) {
    int fd = LOCKS[i].file == NO_FILE ? NO_FILE : files[LOCKS[i].file];
    errno = 0;
    int status = rattle_lock_range(fd, (int16_t)LOCKS[i].kind, LOCKS[i].start, LOCKS[i].len);
    same(LOCKS[i].what, errno, LOCKS[i].error);
    same(LOCKS[i].what, status, LOCKS[i].status);
  }
  close(files[1]);
  same("lock: what was closed has none", rattle_lock_range(files[0], WRITE, 0, 11), 0);
}

int main(int argc, char **argv) {
  words(argc, argv);
  variables(argc, argv);
  heap();
  freed();
  numbers();
  locks();
  printf("%d tried, %d failed\n", done, failed);
  return failed != 0;
}
