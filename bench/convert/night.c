/* Writes a night to standard output: 8 hours of EDF+C in data records of one second, 20 signals of
   64 to 256 Hz, an annotation in every seventh record. The samples are pseudo-random, the same each
   time. About 195 MB. */
#include <stdint.h>
#include <stdio.h>
#include <stdlib.h>
#include <string.h>

enum { SIGNALS = 20, RECORDS = 28800, BLOCK_SAMPLES = 57 };

static const int WIDTHS[10] = {16, 80, 8, 8, 8, 8, 8, 80, 8, 32};

static int rate(int signal) { return signal < 8 ? 256 : signal < 16 ? 128 : 64; }

static void field(const char *text, int width) { printf("%-*s", width, text); }

static void number(int n, int width) {
  char text[16];
  snprintf(text, sizeof text, "%d", n);
  field(text, width);
}

static void signal_field(int signal, int which) {
  char label[17];
  int is_annotations = signal == SIGNALS;
  snprintf(label, sizeof label, "EEG channel %d", signal + 1);
  const char *ordinary[10] = {label,  "AgAgCl electrode", "uV", "-440", "510", "-2048",
                              "2047", "HP:0.1Hz LP:75Hz", "",   ""};
  const char *annotations[10] = {"EDF Annotations ", "",      "", "-1", "1",
                                 "-32768",           "32767", "", "",   ""};
  if (which == 8)
    number(is_annotations ? BLOCK_SAMPLES : rate(signal), WIDTHS[which]);
  else
    field(is_annotations ? annotations[which] : ordinary[which], WIDTHS[which]);
}

int main(void) {
  field("0", 8);
  field("P7 F 02-MAY-1951 X", 80);
  field("Startdate 02-MAR-2002 N1 T3 REC5", 80);
  field("02.03.02", 8);
  field("22.30.00", 8);
  number(256 * (SIGNALS + 2), 8);
  field("EDF+C", 44);
  number(RECORDS, 8);
  field("1", 8);
  number(SIGNALS + 1, 4);
  for (int which = 0; which < 10; which++)
    for (int signal = 0; signal <= SIGNALS; signal++) signal_field(signal, which);

  uint32_t state = 1;
  for (int record = 0; record < RECORDS; record++) {
    for (int signal = 0; signal < SIGNALS; signal++) {
      int16_t samples[256];
      for (int i = 0; i < rate(signal); i++) {
        state = state * 1664525u + 1013904223u;
        samples[i] = (int16_t)(state >> 20) - 2048;
      }
      fwrite(samples, 2, rate(signal), stdout);
    }
    char block[2 * BLOCK_SAMPLES] = {0};
    int at = sprintf(block, "+%d\x14\x14", record) + 1;
    if (record % 7 == 0) sprintf(block + at, "+%d.2500\x15" "1.50\x14" "Spindle\x14", record);
    fwrite(block, 1, sizeof block, stdout);
  }
  return ferror(stdout) != 0;
}
