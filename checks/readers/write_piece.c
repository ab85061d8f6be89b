/* Writes a stretch of a night by EDFlib: write_piece FILE FIRST RECORDS. It starts FIRST seconds
   after the night does and has so many data records of a second, one signal of 10 samples a second,
   which are the same in each file that has that second, and an annotation for each line of standard
   input: its onset after the night's start and its duration, in units of 100 microseconds, and its
   text. A duration of -1 is none. */
#include <edflib.h>
#include <stdio.h>
#include <stdlib.h>

enum { RATE = 10, UNITS = 10000, DAY = 86400, BEGIN = 85800 };

static int refused(int answer, const char *what) {
  if (answer >= 0) return 0;
  fprintf(stderr, "%s: EDFlib answered %d\n", what, answer);
  return 1;
}

int main(int argc, char **argv) {
  if (argc != 4) return 2;
  int first = atoi(argv[2]), records = atoi(argv[3]), at = BEGIN + first;
  int file = edfopen_file_writeonly(argv[1], EDFLIB_FILETYPE_EDFPLUS, 1);
  if (refused(file, "open")) return 1;
  edf_set_startdatetime(file, 2023, 11, 4 + at / DAY, at / 3600 % 24, at / 60 % 60, at % 60);
  edf_set_patientcode(file, "S-0117");
  edf_set_admincode(file, "PSG-42");
  edf_set_samplefrequency(file, 0, RATE);
  edf_set_physical_maximum(file, 0, 3276.7);
  edf_set_physical_minimum(file, 0, -3276.8);
  edf_set_digital_maximum(file, 0, 32767);
  edf_set_digital_minimum(file, 0, -32768);
  edf_set_physical_dimension(file, 0, "uV");
  edf_set_label(file, 0, "EEG channel 1");
  for (int second = first; second < first + records; second++) {
    int samples[RATE];
    for (int i = 0; i < RATE; i++) samples[i] = (second * RATE + i) % 30000;
    if (refused(edfwrite_digital_samples(file, samples), "write")) return 1;
  }
  long long onset, duration;
  char text[41];
  while (scanf("%lld %lld %40[^\n]", &onset, &duration, text) == 3)
    if (refused(edfwrite_annotation_utf8(file, onset - (long long)first * UNITS, duration, text),
                "note"))
      return 1;
  return refused(edfclose_file(file), "close");
}
