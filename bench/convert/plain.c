/* A plain reader and writer of the same bytes as `edfstore < in > out`, for comparison: one EDF+
   file from standard input, its canonical EDF+D file to standard output. It trusts its input: few
   of the refusals are here. */
#include <stdint.h>
#include <stdio.h>
#include <stdlib.h>
#include <string.h>

typedef struct {
  int64_t onset, duration;
  char *text;
  int len;
} Annotation; /* nanoseconds; -1 is no duration */
typedef struct { int64_t start; char *samples; Annotation *list; int count; } Record;

static const int64_t SECOND = 1000000000;
static const int WIDTHS[10] = {16, 80, 8, 8, 8, 8, 8, 80, 8, 32};

static void fail(const char *why) { fprintf(stderr, "%s\n", why); exit(1); }

static void need(void *to, size_t bytes) { if (fread(to, 1, bytes, stdin) != bytes) fail("cut"); }

static void *memory(size_t bytes) {
  void *p = malloc(bytes ? bytes : 1);
  if (!p) fail("memory");
  return p;
}

static int number(const char *field, int width) {
  char text[16] = {0};
  memcpy(text, field, width);
  return atoi(text);
}

/* the decimal at *p, in nanoseconds, up to byte 20 or 21 */
static int64_t decimal(const char **p) {
  int64_t value = 0, unit = SECOND / 10;
  for (; **p >= '0' && **p <= '9'; ++*p) value = value * 10 + (**p - '0');
  value *= SECOND;
  if (**p == '.')
    for (++*p; **p >= '0' && **p <= '9'; ++*p, unit /= 10) value += (**p - '0') * unit;
  return value;
}

static void read_block(const char *p, const char *end, Record *r) {
  int first = 1, room = 0;
  r->list = NULL;
  r->count = 0;
  while (p < end && *p) {
    int negative = *p++ == '-';
    int64_t onset = decimal(&p) * (negative ? -1 : 1), duration = -1;
    if (*p == 21) p++, duration = decimal(&p);
    if (*p++ != 20) fail("annotations");
    while (*p) {
      const char *text_end = memchr(p, 20, end - p);
      if (!text_end) fail("annotations");
      if (first) {
        r->start = onset;
        first = 0;
      } else {
        if (r->count == room)
          r->list = realloc(r->list, (room = room ? 2 * room : 4) * sizeof *r->list);
        Annotation *a = &r->list[r->count++];
        *a = (Annotation){onset, duration, memory(text_end - p), (int)(text_end - p)};
        memcpy(a->text, p, a->len);
      }
      p = text_end + 1;
    }
    p++;
  }
  if (first) fail("time-keeping annotation");
}

static char *write_decimal(char *to, int64_t nanos) {
  to += sprintf(to, "%lld", (long long)(nanos / SECOND));
  if (nanos % SECOND == 0) return to;
  to += sprintf(to, ".%09lld", (long long)(nanos % SECOND));
  while (to[-1] == '0') to--;
  return to;
}

static char *write_tal(char *to, const Annotation *a, int64_t base) {
  int64_t onset = a->onset - base;
  *to++ = onset < 0 ? '-' : '+';
  to = write_decimal(to, onset < 0 ? -onset : onset);
  if (a->duration >= 0) *to++ = 21, to = write_decimal(to, a->duration);
  *to++ = 20;
  memcpy(to, a->text, a->len);
  to += a->len;
  *to++ = 20;
  *to++ = 0;
  return to;
}

static int write_block(char *to, const Record *r, int64_t base) {
  Annotation time_keeping = {r->start, -1, "", 0};
  char *at = write_tal(to, &time_keeping, base);
  for (int i = 0; i < r->count; i++) at = write_tal(at, &r->list[i], base);
  return at - to;
}

/* A file: its header, and the place of its annotations signal, whose bytes are not in `ordinary` */
typedef struct {
  char fixed[256], *signals;
  int ns, count, annotations, before, block, ordinary;
  Record *records;
} File;

static void read_header(File *f) {
  need(f->fixed, 256);
  f->ns = number(f->fixed + 252, 4), f->count = number(f->fixed + 236, 8);
  f->signals = memory(256 * f->ns);
  need(f->signals, 256 * f->ns);
  int all = 0;
  f->annotations = -1;
  for (int i = 0; i < f->ns; i++) {
    int samples = number(f->signals + 216 * f->ns + 8 * i, 8);
    if (!memcmp(f->signals + 16 * i, "EDF Annotations ", 16))
      f->annotations = i, f->before = 2 * all, f->block = 2 * samples;
    all += samples;
  }
  if (f->annotations < 0) fail("no annotations signal");
  f->ordinary = 2 * all - f->block;
}

static void read_records(File *f) {
  f->records = memory(f->count * sizeof *f->records);
  char *bytes = memory(f->block + 1);
  for (int i = 0; i < f->count; i++) {
    Record *r = &f->records[i];
    r->samples = memory(f->ordinary);
    need(r->samples, f->before);
    need(bytes, f->block);
    need(r->samples + f->before, f->ordinary - f->before);
    bytes[f->block] = 0;
    read_block(bytes, bytes + f->block, r);
  }
  if (getchar() != EOF) fail("trailing");
}

/* The files of the bench begin in a whole second, so the header's start stays. */
static void write_header(File *f, int samples) {
  char text[16];
  memcpy(f->fixed + 192, "EDF+D                                       ", 44);
  snprintf(text, sizeof text, "%-8d", f->count);
  memcpy(f->fixed + 236, text, 8);
  fwrite(f->fixed, 1, 256, stdout);
  snprintf(text, sizeof text, "%d", samples);
  const char *row[10] = {"EDF Annotations ", "", "", "-1", "1", "-32768", "32767", "", text, ""};
  for (int c = 0, at = 0; c < 10; at += f->ns * WIDTHS[c], c++) {
    for (int i = 0; i < f->ns; i++)
      if (i != f->annotations) fwrite(f->signals + at + i * WIDTHS[c], 1, WIDTHS[c], stdout);
    printf("%-*s", WIDTHS[c], row[c]);
  }
}

int main(void) {
  static char in_buffer[1 << 16], out_buffer[1 << 16];
  setvbuf(stdin, in_buffer, _IOFBF, sizeof in_buffer);
  setvbuf(stdout, out_buffer, _IOFBF, sizeof out_buffer);
  File f;
  read_header(&f);
  read_records(&f);
  char *text = memory(1500000);
  int longest = 0;
  for (int i = 0; i < f.count; i++) {
    int len = write_block(text, &f.records[i], 0);
    if (len > longest) longest = len;
  }
  int samples = (longest + 1) / 2;
  write_header(&f, samples);
  for (int i = 0; i < f.count; i++) {
    int len = write_block(text, &f.records[i], 0);
    memset(text + len, 0, 2 * samples - len);
    fwrite(f.records[i].samples, 1, f.ordinary, stdout);
    fwrite(text, 1, 2 * samples, stdout);
  }
  return fflush(stdout) != 0;
}
