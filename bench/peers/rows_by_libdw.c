// rows_by_libdw OBJECT: decodes all rows of an object's line number section with libdw of elfutils, and prints sums over them.
#include <elfutils/libdw.h>
#include <fcntl.h>
#include <stdint.h>
#include <stdio.h>

int main(int count, char **words) {
  int file = count > 1 ? open(words[1], O_RDONLY) : -1;
  Dwarf *dwarf = dwarf_begin(file, DWARF_C_READ);
  if (!dwarf) return 3;
  Dwarf_Off at = 0, next;
  Dwarf_CU *unit = NULL;
  Dwarf_Files *files;
  Dwarf_Lines *lines;
  size_t file_count, line_count;
  unsigned long units = 0, rows = 0, sequences = 0, addresses = 0, numbers = 0;
  for (; dwarf_next_lines(dwarf, at, &next, &unit, &files, &file_count, &lines, &line_count) == 0; at = next) {
    units++;
    for (size_t k = 0; k < line_count; k++) {
      Dwarf_Line *line = dwarf_onesrcline(lines, k);
      Dwarf_Addr address;
      int number;
      bool ends;
      dwarf_lineaddr(line, &address);
      dwarf_lineno(line, &number);
      dwarf_lineendsequence(line, &ends);
      rows++;
      sequences += ends;
      addresses += address;
      numbers += (unsigned)number;
    }
    if (next <= at) break;
  }
  printf("units=%lu rows=%lu sequences=%lu addresses=%#lx lines=%lu\n", units, rows, sequences, addresses, numbers);
  return 0;
}
