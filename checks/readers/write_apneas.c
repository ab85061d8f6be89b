/* Writes a night of sleep apneas by EDFlib: write_apneas FILE RECORDS. It has so many data records
   of a second, one signal of 10 samples a second, and an annotation for each line of standard
   input, which has its onset and its duration, in seconds. */
#include <edflib.h>
#include <stdio.h>
#include <stdlib.h>

enum { RATE = 10 };

static int refused(int answer, const char *what) {
  if (answer >= 0) return 0;
  fprintf(stderr, "%s: EDFlib answered %d\n", what, answer);
  return 1;
}

int main(int argc, char **argv) {
  if (argc != 3) return 2;
  int file = edfopen_file_writeonly(argv[1], EDFLIB_FILETYPE_EDFPLUS, 1);
  if (refused(file, "open")) return 1;
  edf_set_startdatetime(file, 2023, 11, 4, 22, 0, 0);
  edf_set_patientcode(file, "S-0117");
  edf_set_samplefrequency(file, 0, RATE);
  edf_set_physical_maximum(file, 0, 3276.7);
  edf_set_physical_minimum(file, 0, -3276.8);
  edf_set_digital_maximum(file, 0, 32767);
  edf_set_digital_minimum(file, 0, -32768);
  edf_set_physical_dimension(file, 0, "uV");
  edf_set_label(file, 0, "EEG channel 1");
  for (int second = 0; second < atoi(argv[2]); second++) {
    int samples[RATE];
    for (int i = 0; i < RATE; i++) samples[i] = (second * RATE + i) % 30000;
    if (refused(edfwrite_digital_samples(file, samples), "write")) return 1;
  }
  /* EDFlib counts annotations in units of 100 microseconds. */
  long long onset, duration;
  while (scanf("%lld %lld", &onset, &duration) == 2)
    if (refused(edfwrite_annotation_utf8(file, onset * 10000, duration * 10000, "Apnea"), "note"))
      return 1;
  return refused(edfclose_file(file), "close");
}
