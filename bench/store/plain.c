/* The store's work in plain C over the system's SQLite (write-ahead log, synchronous FULL), for
   comparison: the same tables, statements and rows as `edfstore` keeps. It trusts its input: none
   of the refusals is here.

     plain take STORE FILE...    a transaction a file; a record is looked for by a range of starts
                                 and inserted where it is new
     plain open STORE            opens, checks each page (integrity_check) and walks every row once,
                                 looking at each block
     plain walk STORE            the recording's rows in order, every byte of them touched
     plain lengths STORE         the same rows, the lengths of their canonical blocks alone
     plain export STORE          two walks: the lengths of the blocks, then the canonical file to
                                 standard output
     plain convert               one file from standard input through a store in memory to standard
                                 output */
#include <sqlite3.h>
#include <stdint.h>
#include <stdio.h>
#include <stdlib.h>
#include <string.h>

typedef struct {
  int64_t onset, duration;
  const char *text;
  int len;
} Annotation; /* nanoseconds; -1 is no duration */
typedef struct { int64_t start; Annotation *list; int count, room; } Notes;
typedef struct {
  char identity[158 + 256 * 640];
  int identity_bytes, ns, count, annotations, before, block, ordinary;
  int64_t start, duration;
} Layout;

static const int64_t SECOND = 1000000000;
static const int WIDTHS[10] = {16, 80, 8, 8, 8, 8, 8, 80, 8, 32};
static sqlite3 *db;

static void fail(const char *why) {
  fprintf(stderr, "%s: %s\n", why, db ? sqlite3_errmsg(db) : "");
  exit(1);
}
static void *memory(size_t bytes) {
  void *p = malloc(bytes ? bytes : 1);
  if (!p) fail("memory");
  return p;
}

static int number(const char *field, int width) {
  char text[16] = {0};
  memcpy(text, field, width);
  return atoi(text);
}

/* days from 1985-01-01 */
static int64_t day(int y, int m, int d) {
  y -= m <= 2;
  int64_t era = y / 400, of_era = y - era * 400,
          of_year = (153 * (m + (m > 2 ? -3 : 9)) + 2) / 5 + d - 1;
  return era * 146097 + of_era * 365 + of_era / 4 - of_era / 100 + of_year - 719468 - 5479;
}

/* the decimal at *p, in nanoseconds */
static int64_t decimal(const char **p) {
  int64_t value = 0, unit = SECOND / 10;
  for (; **p >= '0' && **p <= '9'; ++*p) value = value * 10 + (**p - '0');
  value *= SECOND;
  if (**p == '.')
    for (++*p; **p >= '0' && **p <= '9'; ++*p, unit /= 10) value += (**p - '0') * unit;
  return value;
}

/* the annotations of a block, whose texts stay where they are; a 0 stands after its end */
static void read_block(const char *p, const char *end, int64_t base, Notes *notes) {
  int first = 1;
  notes->count = 0;
  while (p < end && *p) {
    int negative = *p++ == '-';
    int64_t onset = base + decimal(&p) * (negative ? -1 : 1), duration = -1;
    if (*p == 21) p++, duration = decimal(&p);
    if (*p++ != 20) fail("annotations");
    while (*p) {
      const char *text_end = memchr(p, 20, end - p);
      if (!text_end) fail("annotations");
      if (first) {
        notes->start = onset;
        first = 0;
      } else {
        if (notes->count == notes->room)
          notes->list = realloc(notes->list, (notes->room = notes->room ? 2 * notes->room : 16) *
                                                 sizeof *notes->list);
        notes->list[notes->count++] = (Annotation){onset, duration, p, (int)(text_end - p)};
      }
      p = text_end + 1;
    }
    p++;
  }
  if (first) fail("time-keeping annotation");
}

static char *write_decimal(char *to, int64_t nanos) {
  to += sprintf(to, "%lld", (long long)(nanos / SECOND));
  if (nanos % SECOND == 0) return to;
  to += sprintf(to, ".%09lld", (long long)(nanos % SECOND));
  while (to[-1] == '0') to--;
  return to;
}

static char *write_tal(char *to, const Annotation *a, int64_t base) {
  int64_t onset = a->onset - base;
  *to++ = onset < 0 ? '-' : '+';
  to = write_decimal(to, onset < 0 ? -onset : onset);
  if (a->duration >= 0) *to++ = 21, to = write_decimal(to, a->duration);
  *to++ = 20;
  memcpy(to, a->text, a->len);
  to += a->len;
  *to++ = 20;
  *to++ = 0;
  return to;
}

static int write_block(char *to, const Notes *notes, int64_t base) {
  Annotation time_keeping = {notes->start, -1, "", 0};
  char *at = write_tal(to, &time_keeping, base);
  for (int i = 0; i < notes->count; i++) at = write_tal(at, &notes->list[i], base);
  return at - to;
}

/* SQL */

static void run(const char *sql) { if (sqlite3_exec(db, sql, 0, 0, 0)) fail(sql); }

static sqlite3_stmt *prepared(const char *sql) {
  sqlite3_stmt *made;
  if (sqlite3_prepare_v2(db, sql, -1, &made, 0)) fail(sql);
  return made;
}

static void open_store(const char *path) {
  if (sqlite3_open(path, &db)) fail("open");
  run("PRAGMA journal_mode = WAL");
  run("PRAGMA synchronous = FULL");
  run("CREATE TABLE IF NOT EXISTS recording (id INTEGER PRIMARY KEY, "
      "identity BLOB NOT NULL UNIQUE) STRICT");
  run("CREATE TABLE IF NOT EXISTS record (recording INTEGER NOT NULL, start INTEGER NOT NULL, "
      "samples BLOB NOT NULL, "
      "block BLOB NOT NULL, PRIMARY KEY (recording, start)) STRICT");
}

static int64_t recording(const Layout *l) {
  static sqlite3_stmt *find, *make;
  if (!find) find = prepared("SELECT id FROM recording WHERE identity = ?1");
  if (!make) make = prepared("INSERT INTO recording (identity) VALUES (?1)");
  sqlite3_bind_blob(find, 1, l->identity, l->identity_bytes, SQLITE_STATIC);
  int64_t id = sqlite3_step(find) == SQLITE_ROW ? sqlite3_column_int64(find, 0) : 0;
  sqlite3_reset(find);
  if (id) return id;
  sqlite3_bind_blob(make, 1, l->identity, l->identity_bytes, SQLITE_STATIC);
  if (sqlite3_step(make) != SQLITE_DONE) fail("recording");
  sqlite3_reset(make);
  return sqlite3_last_insert_rowid(db);
}

static int is_stored(int64_t id, const Layout *l, int64_t start, const char *samples,
                     const char *block, int len) {
  static sqlite3_stmt *near;
  if (!near)
    near = prepared("SELECT start, samples, block FROM record "
                    "WHERE recording = ?1 AND start > ?2 AND start < ?3 ORDER BY start");
  sqlite3_bind_int64(near, 1, id);
  sqlite3_bind_int64(near, 2, start - l->duration);
  sqlite3_bind_int64(near, 3, start + l->duration);
  int known = 0;
  while (sqlite3_step(near) == SQLITE_ROW) {
    if (sqlite3_column_int64(near, 0) != start || sqlite3_column_bytes(near, 1) != l->ordinary ||
        memcmp(sqlite3_column_blob(near, 1), samples, l->ordinary) ||
        sqlite3_column_bytes(near, 2) != len || memcmp(sqlite3_column_blob(near, 2), block, len))
      fail("clash");
    known = 1;
  }
  sqlite3_reset(near);
  return known;
}

static void add(int64_t id, const Layout *l, int64_t start, const char *samples, const char *block,
                int len) {
  static sqlite3_stmt *insert;
  if (!insert)
    insert = prepared(
        "INSERT INTO record (recording, start, samples, block) VALUES (?1, ?2, ?3, ?4)");
  sqlite3_bind_int64(insert, 1, id);
  sqlite3_bind_int64(insert, 2, start);
  sqlite3_bind_blob(insert, 3, samples, l->ordinary, SQLITE_STATIC);
  sqlite3_bind_blob(insert, 4, block, len, SQLITE_STATIC);
  if (sqlite3_step(insert) != SQLITE_DONE) fail("insert");
  sqlite3_reset(insert);
}

/* Files */

static void need(void *to, size_t bytes, FILE *from) {
  if (fread(to, 1, bytes, from) != bytes) fail("cut");
}

static int month(const char *name) {
  static const char *names = "JANFEBMARAPRMAYJUNJULAUGSEPOCTNOVDEC";
  for (int m = 0; m < 12; m++) if (!memcmp(names + 3 * m, name, 3)) return m + 1;
  fail("month");
  return 0;
}

static void read_header(Layout *l, FILE *from) {
  char fixed[256];
  need(fixed, 256, from);
  l->ns = number(fixed + 252, 4), l->count = number(fixed + 236, 8);
  const char *field = fixed + 244;
  l->duration = decimal(&field);
  const char *date = fixed + 98, *time = fixed + 176; /* "Startdate dd-MMM-yyyy" */
  l->start = SECOND * (86400 * day(number(date + 7, 4), month(date + 3), number(date, 2)) +
                       3600 * number(time, 2) + 60 * number(time + 3, 2) + number(time + 6, 2));
  char *id = l->identity;
  memset(id, ' ', 158);
  memcpy(id, fixed + 8, 80), id[80] = 'D';
  memcpy(id + 81, fixed + 109, 59), memcpy(id + 150, fixed + 244, 8);
  char *part = memory(256 * l->ns), *row = id + 158;
  need(part, 256 * l->ns, from);
  int all = 0;
  l->annotations = -1;
  for (int i = 0; i < l->ns; i++) {
    int samples = number(part + 216 * l->ns + 8 * i, 8);
    if (!memcmp(part + 16 * i, "EDF Annotations ", 16))
      l->annotations = i, l->before = 2 * all, l->block = 2 * samples;
    else
      for (int f = 0, at = 0; f < 10; at += l->ns * WIDTHS[f], row += WIDTHS[f], f++)
        memcpy(row, part + at + i * WIDTHS[f], WIDTHS[f]);
    all += samples;
  }
  free(part);
  if (l->annotations < 0) fail("no annotations signal");
  l->ordinary = 2 * all - l->block;
  l->identity_bytes = row - id;
}

static void take_file(FILE *from, const char *name) {
  static Layout l;
  static Notes notes;
  read_header(&l, from);
  char *samples = memory(l.ordinary), *bytes = memory(l.block + 1),
       *block = memory(4 * l.block + 1500000);
  int new = 0, known = 0;
  bytes[l.block] = 0;
  run("BEGIN IMMEDIATE");
  int64_t id = recording(&l);
  for (int i = 0; i < l.count; i++) {
    need(samples, l.before, from), need(bytes, l.block, from);
    need(samples + l.before, l.ordinary - l.before, from);
    read_block(bytes, bytes + l.block, l.start, &notes);
    int len = write_block(block, &notes, 0);
    if (is_stored(id, &l, notes.start, samples, block, len)) known++;
    else add(id, &l, notes.start, samples, block, len), new++;
  }
  run("COMMIT");
  if (name) printf("%s: %d new, %d known\n", name, new, known);
  free(samples), free(bytes), free(block);
}

static void take(int count, char **names) {
  static char buffer[1 << 16];
  for (int i = 0; i < count; i++) {
    FILE *from = fopen(names[i], "rb");
    if (!from) fail(names[i]);
    setvbuf(from, buffer, _IOFBF, sizeof buffer);
    take_file(from, names[i]);
    fclose(from);
  }
}

/* Walks */

static const char *ROWS =
    "SELECT start, samples, block FROM record "
    "WHERE recording = (SELECT min(id) FROM recording) ORDER BY start";

static void check_rows(void) {
  sqlite3_stmt *pages = prepared("PRAGMA integrity_check");
  sqlite3_stmt *all = prepared("SELECT recording, start, samples, block FROM record "
                               "ORDER BY recording, start");
  if (sqlite3_step(pages) != SQLITE_ROW ||
      strcmp((const char *)sqlite3_column_text(pages, 0), "ok"))
    fail("pages");
  sqlite3_finalize(pages);
  Notes notes = {0};
  char *again = memory(1500000), *text = memory(1500001);
  int64_t rows = 0;
  for (; sqlite3_step(all) == SQLITE_ROW; rows++) {
    int len = sqlite3_column_bytes(all, 3);
    memcpy(text, sqlite3_column_blob(all, 3), len);
    text[len] = 0;
    read_block(text, text + len, 0, &notes);
    if (sqlite3_column_bytes(all, 2) < 2 || notes.start != sqlite3_column_int64(all, 1) ||
        write_block(again, &notes, 0) != len || memcmp(again, text, len))
      fail("foreign");
  }
  printf("%lld rows\n", (long long)rows);
}

static void walk(void) {
  sqlite3_stmt *rows = prepared(ROWS);
  uint64_t sum = 0;
  while (sqlite3_step(rows) == SQLITE_ROW)
    for (int column = 1; column < 3; column++) {
      const unsigned char *bytes = sqlite3_column_blob(rows, column);
      for (int i = 0, n = sqlite3_column_bytes(rows, column); i < n; i++) sum += bytes[i];
    }
  printf("%llu\n", (unsigned long long)sum);
}

/* one walk over the rows: the longest canonical block, or the records written where `samples` is
 * not 0 */
static int each_row(int samples, int64_t base) {
  static Notes notes;
  static char text[1500001], made[1500001];
  sqlite3_stmt *rows = prepared(ROWS);
  int longest = 0;
  while (sqlite3_step(rows) == SQLITE_ROW) {
    int len = sqlite3_column_bytes(rows, 2);
    memcpy(text, sqlite3_column_blob(rows, 2), len);
    text[len] = 0;
    read_block(text, text + len, 0, &notes);
    int size = write_block(made, &notes, base);
    if (size > longest) longest = size;
    if (!samples) continue;
    memset(made + size, 0, 2 * samples - size);
    fwrite(sqlite3_column_blob(rows, 1), 1, sqlite3_column_bytes(rows, 1), stdout);
    fwrite(made, 1, 2 * samples, stdout);
  }
  sqlite3_finalize(rows);
  return longest;
}

static void civil(int64_t days, int *y, int *m, int *d) {
  int64_t z = days + 719468 + 5479, era = z / 146097, e = z - era * 146097,
          yoe = (e - e / 1460 + e / 36524 - e / 146096) / 365;
  int64_t doy = e - (365 * yoe + yoe / 4 - yoe / 100), mp = (5 * doy + 2) / 153;
  *d = doy - (153 * mp + 2) / 5 + 1, *m = mp < 10 ? mp + 3 : mp - 9,
  *y = yoe + era * 400 + (*m <= 2);
}

static void write_header(const char *id, int bytes, int64_t base, int count, int samples) {
  static const char *names = "JANFEBMARAPRMAYJUNJULAUGSEPOCTNOVDEC";
  int y, m, d, ns = (bytes - 158) / 256 + 1, s = base / SECOND % 86400;
  civil(base / SECOND / 86400, &y, &m, &d);
  printf("0       %.80sStartdate %02d-%.3s-%04d%.59s", id, d, names + 3 * (m - 1), y, id + 81);
  printf("%02d.%02d.%02d%02d.%02d.%02d%-8d%-44s%-8d%.8s%-4d", d, m, y % 100, s / 3600, s / 60 % 60,
         s % 60, 256 + 256 * ns, "EDF+D", count, id + 150, ns);
  char digits[16];
  snprintf(digits, sizeof digits, "%d", samples);
  const char *row[10] = {"EDF Annotations ", "", "", "-1", "1", "-32768", "32767", "", digits, ""};
  for (int f = 0, at = 0; f < 10; at += WIDTHS[f], f++) {
    for (int i = 0; i < ns - 1; i++) fwrite(id + 158 + 256 * i + at, 1, WIDTHS[f], stdout);
    printf("%-*s", WIDTHS[f], row[f]);
  }
}

static void export_first(void) {
  sqlite3_stmt *first = prepared(
      "SELECT identity FROM recording WHERE id = (SELECT min(id) FROM recording)");
  sqlite3_stmt *sum = prepared(
      "SELECT count(*), min(start) FROM record WHERE recording = (SELECT min(id) FROM recording)");
  if (sqlite3_step(first) != SQLITE_ROW || sqlite3_step(sum) != SQLITE_ROW) fail("no recording");
  int64_t base = sqlite3_column_int64(sum, 1) / SECOND * SECOND;
  int samples = (each_row(0, base) + 1) / 2;
  write_header(sqlite3_column_blob(first, 0), sqlite3_column_bytes(first, 0), base,
               sqlite3_column_int(sum, 0), samples);
  each_row(samples, base);
  sqlite3_finalize(first), sqlite3_finalize(sum);
  if (fflush(stdout)) fail("write");
}

/* closes cleanly, which copies the log into the file */
static void close_store(void) {
  for (sqlite3_stmt *left; (left = sqlite3_next_stmt(db, 0));) sqlite3_finalize(left);
  if (sqlite3_close(db)) fail("close");
}

int main(int argc, char **argv) {
  static char out_buffer[1 << 16];
  setvbuf(stdout, out_buffer, _IOFBF, sizeof out_buffer);
  const char *word = argc > 1 ? argv[1] : "";
  if (argc < 3 && strcmp(word, "convert")) {
    fprintf(stderr, "usage: plain take|open|walk|lengths|export STORE [FILE...], or convert\n");
    return 2;
  }
  open_store(strcmp(word, "convert") ? argv[2] : ":memory:");
  if (!strcmp(word, "take")) take(argc - 3, argv + 3);
  if (!strcmp(word, "open")) check_rows();
  if (!strcmp(word, "walk")) walk();
  if (!strcmp(word, "lengths")) printf("%d\n", each_row(0, 0));
  if (!strcmp(word, "convert")) take_file(stdin, NULL);
  if (!strcmp(word, "export") || !strcmp(word, "convert")) export_first();
  close_store();
  if (fflush(stdout)) return 1;
  return 0;
}
