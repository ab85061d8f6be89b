/* Writes a short EDF+ recording with EDFlib: eight data records of one second, an EEG and a
   respiration signal, and annotations with and without a duration.

   cc write_sample.c -o write_sample -ledf -lm && ./write_sample edflib.edf */
#include <edflib.h>
#include <math.h>
#include <stdio.h>

enum { RECORDS = 8, EEG_RATE = 64, RESPIRATION_RATE = 16 };

static int refused(int answer, const char *what) {
  if (answer >= 0) return 0;
  fprintf(stderr, "%s: EDFlib answered %d\n", what, answer);
  return 1;
}

static void write_header(int file) {
  edf_set_startdatetime(file, 2023, 11, 4, 22, 58, 30);
  edf_set_patientcode(file, "S-0117");
  edf_set_gender(file, 0);
  edf_set_birthdate(file, 1979, 2, 28);
  edf_set_patientname(file, "Sleeper");
  edf_set_admincode(file, "PSG-42");
  edf_set_technician(file, "AB");
  edf_set_equipment(file, "ambulatory");

  const char *labels[2] = {"EEG Fpz-Cz", "Resp oro-nasal"};
  const char *dimensions[2] = {"uV", "l/min"};
  const int rates[2] = {EEG_RATE, RESPIRATION_RATE};
  const double high[2] = {510, 40};
  const double low[2] = {-440, -40};
  for (int signal = 0; signal < 2; signal++) {
    edf_set_samplefrequency(file, signal, rates[signal]);
    edf_set_physical_maximum(file, signal, high[signal]);
    edf_set_physical_minimum(file, signal, low[signal]);
    edf_set_digital_maximum(file, signal, 2047);
    edf_set_digital_minimum(file, signal, -2048);
    edf_set_physical_dimension(file, signal, dimensions[signal]);
    edf_set_label(file, signal, labels[signal]);
  }
  edf_set_prefilter(file, 0, "HP:0.1Hz LP:75Hz");
  edf_set_transducer(file, 0, "AgAgCl electrode");
}

int main(int argc, char **argv) {
  if (argc != 2) return fprintf(stderr, "usage: write_sample FILE\n"), 2;
  int file = edfopen_file_writeonly(argv[1], EDFLIB_FILETYPE_EDFPLUS, 2);
  if (refused(file, "open")) return 1;
  write_header(file);

  for (int second = 0; second < RECORDS; second++) {
    int eeg[EEG_RATE], respiration[RESPIRATION_RATE];
    for (int i = 0; i < EEG_RATE; i++)
      eeg[i] = (int)lround(600 * sin(2 * M_PI * 10 * i / EEG_RATE) + 20 * second);
    for (int i = 0; i < RESPIRATION_RATE; i++)
      respiration[i] =
          (int)lround(900 * sin(2 * M_PI * (second + (double)i / RESPIRATION_RATE) / 4));
    if (refused(edfwrite_digital_samples(file, eeg), "write")) return 1;
    if (refused(edfwrite_digital_samples(file, respiration), "write")) return 1;
  }

  /* EDFlib counts annotations in units of 100 microseconds. */
  edfwrite_annotation_utf8(file, 0, -1, "Lights off");
  edfwrite_annotation_utf8(file, 15000, 25000, "Apnea");
  edfwrite_annotation_utf8(file, 42500, -1, "Sch\xc3\xa4""del bewegt");
  edfwrite_annotation_utf8(file, 62500, 5000, "Arousal");
  return refused(edfclose_file(file), "close");
}
