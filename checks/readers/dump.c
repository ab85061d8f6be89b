/* Reads an EDF file by EDFlib: dump FILE SAMPLES. The digital samples go into the file SAMPLES,
   signal by signal, as 32-bit integers of this machine; the rest is printed: how many data records
   there are, when the first starts, how many 100 ns one lasts, and then each annotation's onset and
   duration, as EDFlib gives them, and its text. */
#include <edflib.h>
#include <stdio.h>
#include <stdlib.h>

static int write_samples(int handle, int signal, long long count, FILE *made) {
  int *samples = malloc(count * sizeof(int));
  if (!samples || edfread_digital_samples(handle, signal, (int)count, samples) != count ||
      fwrite(samples, sizeof(int), count, made) != (size_t)count) {
    fprintf(stderr, "signal %d: not all of its %lld samples could be read and written\n",
            signal + 1, count);
    return 1;
  }
  free(samples);
  return 0;
}

int main(int argc, char **argv) {
  struct edf_hdr_struct header;
  if (argc != 3) return 2;
  int handle = edfopen_file_readonly(argv[1], &header, EDFLIB_READ_ALL_ANNOTATIONS);
  if (handle < 0) {
    fprintf(stderr, "refused, %d%s\n", header.filetype,
            header.filetype == EDFLIB_FILE_IS_DISCONTINUOUS ? " (the file is discontinuous)" : "");
    return 1;
  }
  FILE *made = fopen(argv[2], "wb");
  if (!made) return 1;
  for (int signal = 0; signal < header.edfsignals; signal++)
    if (write_samples(handle, signal, header.signalparam[signal].smp_in_file, made)) return 1;
  if (fclose(made)) return 1;
  printf("%lld %04d-%02d-%02dT%02d:%02d:%02d %lld %lld\n", header.datarecords_in_file,
         header.startdate_year, header.startdate_month, header.startdate_day, header.starttime_hour,
         header.starttime_minute, header.starttime_second, header.starttime_subsecond,
         header.datarecord_duration);
  for (long long at = 0; at < header.annotations_in_file; at++) {
    struct edf_annotation_struct note;
    if (edf_get_annotation(handle, (int)at, &note)) return 1;
    printf("%lld\t%s\t%s\n", note.onset, note.duration, note.annotation);
  }
  return edfclose_file(handle) ? 1 : 0;
}
