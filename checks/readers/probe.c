/* Opens EDF files with EDFlib and says what it answers: probe FILE... */
#include <edflib.h>
#include <stdio.h>

int main(int argc, char **argv) {
  for (int i = 1; i < argc; i++) {
    struct edf_hdr_struct header;
    int handle = edfopen_file_readonly(argv[i], &header, EDFLIB_READ_ALL_ANNOTATIONS);
    if (handle >= 0)
      printf("opened, %lld records, %lld annotations\n", (long long)header.datarecords_in_file,
             (long long)header.annotations_in_file);
    else
      printf("refused, %d%s\n", header.filetype,
             header.filetype == EDFLIB_FILE_IS_DISCONTINUOUS ? " (the file is discontinuous)" : "");
    if (handle >= 0) edfclose_file(handle);
  }
  return 0;
}
