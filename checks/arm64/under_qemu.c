/* Runs PROGRAM, which is for arm64, by QEMU with the words and the streams that it is given itself.
   ROOT has the C library for that machine. What LD_PRELOAD names is loaded by the program, and not
   by qemu; nor is it loaded here, since this is linked statically. */
#include <stdio.h>
#include <stdlib.h>
#include <string.h>
#include <unistd.h>

int main(int argc, char **argv) {
  const char *named = getenv("LD_PRELOAD");
  size_t length = named ? strlen(named) : 0;
  char **words = calloc((size_t)argc + 8, sizeof *words);
  char *added = malloc(length + sizeof "LD_PRELOAD=");
  if (!words || !added) {
    return 127;
  }
  size_t n = 0;
  words[n++] = QEMU;
  words[n++] = "-L";
  words[n++] = ROOT;
  if (named) {
    sprintf(added, "LD_PRELOAD=%s", named);
    words[n++] = "-E";
    words[n++] = added;
    unsetenv("LD_PRELOAD");
  }
  words[n++] = PROGRAM;
  for (int i = 1; i < argc; i++) {
    words[n++] = argv[i];
  }
  execv(QEMU, words);
  perror(QEMU);
  return 127;
}
