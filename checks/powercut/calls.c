/* Writes down, in their order, the calls that change the two files of a store or make them last,
 * and what is printed. It is to be loaded before the C library.
 *
 * STORE is the whole path of the store's file, and its log has `-wal` added; CALLS is the file to
 * write to; ENTROPY is a number. An entry is a letter, the number of the file (0 the store's, 1 its
 * log), how many bytes follow (4 bytes), a number (8 bytes), and those bytes:
 *
 *   c  the file was made           w  these bytes were written at the number
 *   s  the file was synced         t  the file's length became the number
 *   d  the folder was synced       i  another file, of this name, was opened
 *   o  these bytes were printed
 *
 * A program that renames, links or removes one of the two files is stopped: no entry would tell it.
 * Random bytes come from ENTROPY, so that the same words make the same calls. */
#define _GNU_SOURCE
#include <errno.h>
#include <fcntl.h>
#include <limits.h>
#include <stdarg.h>
#include <stdint.h>
#include <stdio.h>
#include <stdlib.h>
#include <string.h>
#include <sys/syscall.h>
#include <sys/types.h>
#include <unistd.h>

enum { STORE, LOG, FOLDER, NONE };
#define FILES 1024

static int kept = -1;                  /* where the calls are written to */
static unsigned char which[FILES];     /* what each open file is */
static char names[FOLDER + 1][PATH_MAX];
static uint64_t entropy;

static void put(const void *bytes, size_t size) {
  while (size > 0) {
    ssize_t done = syscall(SYS_write, kept, bytes, size);
    if (done <= 0) abort();
    bytes = (const char *)bytes + done;
    size -= done;
  }
}

static void note(char letter, int file, uint64_t number, const void *bytes, uint32_t size) {
  unsigned char head[14] = {letter, file};
  if (kept < 0) return;
  memcpy(head + 2, &size, sizeof size);
  memcpy(head + 6, &number, sizeof number);
  put(head, sizeof head);
  put(bytes, size);
}

__attribute__((constructor)) static void begin(void) {
  const char *store = getenv("STORE"), *calls = getenv("CALLS"), *number = getenv("ENTROPY");
  memset(which, NONE, sizeof which);
  if (!store || !calls || !number || strlen(store) + 5 > PATH_MAX) abort();
  strcpy(names[STORE], store);
  strcat(strcpy(names[LOG], store), "-wal");
  strcpy(names[FOLDER], store);
  *strrchr(names[FOLDER], '/') = 0;
  entropy = strtoull(number, NULL, 10);
  int made = syscall(SYS_openat, AT_FDCWD, calls, O_CREAT | O_TRUNC | O_WRONLY, 0600);
  kept = fcntl(made, F_DUPFD, FILES / 2);
  syscall(SYS_close, made);
  if (kept < 0) abort();
}

static int opened(const char *path, int flags, mode_t mode) {
  int was = syscall(SYS_faccessat, AT_FDCWD, path, F_OK) == 0;
  int file = syscall(SYS_openat, AT_FDCWD, path, flags, mode);
  char whole[PATH_MAX];
  if (file < 0 || file >= FILES || !realpath(path, whole)) return file;
  which[file] = STORE;
  while (which[file] != NONE && strcmp(whole, names[which[file]]) != 0) which[file]++;
  if (which[file] == NONE) note('i', NONE, 0, path, strlen(path));
  if (which[file] <= LOG && !was) note('c', which[file], 0, "", 0);
  if (which[file] <= LOG && was && (flags & O_TRUNC)) note('t', which[file], 0, "", 0);
  return file;
}

int open(const char *path, int flags, ...) {
  va_list rest;
  va_start(rest, flags);
  mode_t mode = flags & O_CREAT ? va_arg(rest, mode_t) : 0;
  va_end(rest);
  return opened(path, flags, mode);
}

int open64(const char *path, int flags, ...) __attribute__((alias("open")));

int close(int file) {
  if (file >= 0 && file < FILES) which[file] = NONE;
  return syscall(SYS_close, file);
}

static int is(int file) {
  return file >= 0 && file < FILES ? which[file] : NONE;
}

ssize_t write(int file, const void *bytes, size_t size) {
  off_t at = is(file) <= LOG ? syscall(SYS_lseek, file, 0, SEEK_CUR) : 0;
  ssize_t done = syscall(SYS_write, file, bytes, size);
  if (done > 0 && file == STDOUT_FILENO) note('o', NONE, 0, bytes, done);
  if (done > 0 && is(file) <= LOG) note('w', is(file), at, bytes, done);
  return done;
}

ssize_t __write(int file, const void *bytes, size_t size) {
  return write(file, bytes, size);
}

ssize_t pwrite(int file, const void *bytes, size_t size, off_t at) {
  ssize_t done = syscall(SYS_pwrite64, file, bytes, size, at);
  if (done > 0 && is(file) <= LOG) note('w', is(file), at, bytes, done);
  return done;
}

ssize_t pwrite64(int file, const void *bytes, size_t size, off_t at)
    __attribute__((alias("pwrite")));

int ftruncate(int file, off_t size) {
  int status = syscall(SYS_ftruncate, file, size);
  if (status == 0 && is(file) <= LOG) note('t', is(file), size, "", 0);
  return status;
}

int ftruncate64(int file, off_t size) __attribute__((alias("ftruncate")));

static void must_be_other(const char *path) {
  char whole[PATH_MAX];
  if (!realpath(path, whole)) return;
  if (strcmp(whole, names[STORE]) == 0 || strcmp(whole, names[LOG]) == 0) abort();
}

int rename(const char *from, const char *to) {
  must_be_other(from);
  must_be_other(to);
  return syscall(SYS_renameat, AT_FDCWD, from, AT_FDCWD, to);
}

int link(const char *from, const char *to) {
  must_be_other(from);
  return syscall(SYS_linkat, AT_FDCWD, from, AT_FDCWD, to, 0);
}

int unlink(const char *path) {
  must_be_other(path);
  return syscall(SYS_unlinkat, AT_FDCWD, path, 0);
}

static int synced(int file, int status) {
  if (status == 0 && is(file) <= LOG) note('s', is(file), 0, "", 0);
  if (status == 0 && is(file) == FOLDER) note('d', FOLDER, 0, "", 0);
  return status;
}

int fsync(int file) {
  return synced(file, syscall(SYS_fsync, file));
}

int fdatasync(int file) {
  return synced(file, syscall(SYS_fdatasync, file));
}

int getentropy(void *bytes, size_t size) {
  for (size_t at = 0; at < size; at++) {
    uint64_t mixed = entropy += 0x9e3779b97f4a7c15u;
    mixed = (mixed ^ (mixed >> 30)) * 0xbf58476d1ce4e5b9u;
    mixed = (mixed ^ (mixed >> 27)) * 0x94d049bb133111ebu;
    ((unsigned char *)bytes)[at] = mixed >> 56;
  }
  return 0;
}
