/* Writes one file of a night with EDFlib, as an ambulatory recorder might: EDF+C, data records of
   30 seconds, three EEG signals of 128 Hz and a respiration of 32 Hz, and the sleep stage of each
   record as an annotation.

     write_night FILE FIRST COUNT        COUNT records from record FIRST of the night on, which
                                         begins at 22:15:00

   EDFlib puts the n-th annotation into the n-th data record. Here each record has one, so a record
   is the same in every file. */
#include <edflib.h>
#include <math.h>
#include <stdio.h>
#include <stdlib.h>

enum { SIGNALS = 4, SECONDS = 30, EEG = 128 * SECONDS, RESPIRATION = 32 * SECONDS };

static const char *LABELS[SIGNALS] = {"EEG Fpz-Cz", "EEG Pz-Oz", "EOG horizontal",
                                      "Resp oro-nasal"};

static void check(int answer, const char *what) {
  if (answer >= 0) return;
  fprintf(stderr, "%s: EDFlib answered %d\n", what, answer);
  exit(1);
}

static void describe(int file, int first) {
  int second = 22 * 3600 + 15 * 60 + SECONDS * first;
  edf_set_startdatetime(file, 2023, 11, 4 + second / 86400, second / 3600 % 24, second / 60 % 60,
                        second % 60);
  edf_set_patientcode(file, "S-0117");
  edf_set_gender(file, 0);
  edf_set_birthdate(file, 1979, 2, 28);
  edf_set_patientname(file, "Sleeper");
  edf_set_admincode(file, "PSG-42");
  edf_set_technician(file, "AB");
  edf_set_equipment(file, "ambulatory");
  check(edf_set_datarecord_duration(file, SECONDS * 100000), "duration of a data record");
  for (int signal = 0; signal < SIGNALS; signal++) {
    int is_eeg = signal < 3;
    edf_set_samplefrequency(file, signal, is_eeg ? EEG : RESPIRATION);
    edf_set_physical_maximum(file, signal, is_eeg ? 510 : 40);
    edf_set_physical_minimum(file, signal, is_eeg ? -440 : -40);
    edf_set_digital_maximum(file, signal, 2047);
    edf_set_digital_minimum(file, signal, -2048);
    edf_set_physical_dimension(file, signal, is_eeg ? "uV" : "l/min");
    edf_set_label(file, signal, LABELS[signal]);
  }
}

static void write_record(int file, int record) {
  static int samples[EEG];
  for (int signal = 0; signal < SIGNALS; signal++) {
    int count = signal < 3 ? EEG : RESPIRATION;
    for (int i = 0; i < count; i++) {
      double t = SECONDS * (record + (double)i / count);
      samples[i] = lround(900 * sin(2 * M_PI * t * (signal < 3 ? 10.3 : 0.23) + signal) +
                          500 * sin(t * t / 1e5));
    }
    check(edfwrite_digital_samples(file, samples), "write");
  }
}

int main(int argc, char **argv) {
  static const char *STAGES[6] = {"Sleep stage W",  "Sleep stage N1", "Sleep stage N2",
                                  "Sleep stage N3", "Sleep stage N2", "Sleep stage R"};
  if (argc != 4) return fprintf(stderr, "usage: write_night FILE FIRST COUNT\n"), 2;
  int first = atoi(argv[2]), count = atoi(argv[3]);
  int file = edfopen_file_writeonly(argv[1], EDFLIB_FILETYPE_EDFPLUS, SIGNALS);
  check(file, "open");
  describe(file, first);
  for (int record = 0; record < count; record++) {
    write_record(file, first + record);
    edfwrite_annotation_utf8(file, 10000LL * SECONDS * record, 10000LL * SECONDS,
                             STAGES[(first + record) / 20 % 6]);
  }
  check(edfclose_file(file), "close");
  return 0;
}
