// least SECTION: about the least that C needs to decode a little-endian DWARF 5 line number section. It takes each
// header_length on trust to pass over the tables, runs every operation, and checks nothing but the ends of the units.
// Prints the counts of units, rows and sequences, and sums over the rows, so that nothing is left out.
#include <fcntl.h>
#include <stdint.h>
#include <stdio.h>
#include <stdlib.h>
#include <string.h>
#include <sys/stat.h>
#include <unistd.h>

typedef const uint8_t *place;

struct counts {
  uint64_t units, rows, sequences, addresses, files, lines;
};

// What a special opcode adds to the address and to the line.
struct special {
  uint64_t advance;
  int64_t lines;
};

static uint64_t number(place at, int size) {
  uint64_t value = 0;
  memcpy(&value, at, size);
  return value;
}

static inline uint64_t uleb(place *at) {
  uint64_t byte = *(*at)++, value = byte & 127;
  for (int shift = 7; byte >= 128; shift += 7) {
    byte = *(*at)++;
    value |= (byte & 127) << (shift & 63);
  }
  return value;
}

static inline int64_t sleb(place *at) {
  uint64_t byte = *(*at)++, value = byte & 127;
  int shift = 7;
  for (; byte >= 128; shift += 7) {
    byte = *(*at)++;
    value |= (byte & 127) << (shift & 63);
  }
  return byte & 64 && shift < 64 ? value | ~0ull << shift : value;
}

// Runs a program of a unit with one operation an instruction and addresses of 8 bytes, by a jump after each opcode.
static void run(place at, place end, const struct special *special, uint64_t minimum, unsigned base, struct counts *counts) {
  static void *known[] = {&&extended, &&copy, &&advance_pc, &&advance_line, &&set_file, &&uleb_operand, &&quiet,
                          &&quiet, &&const_add_pc, &&fixed_advance_pc, &&quiet, &&quiet, &&uleb_operand};
  void *jumps[256];
  for (unsigned opcode = 0; opcode < 256; opcode++)
    jumps[opcode] = opcode >= base ? &&a_special : opcode < 13 ? known[opcode] : &&quiet;
  uint64_t address = 0, file = 1, line = 1;
  unsigned opcode = 0;
#define NEXT \
  do { \
    if (__builtin_expect(at >= end, 0)) return; \
    opcode = *at++; \
    goto *jumps[opcode]; \
  } while (0)
#define ROW (counts->rows++, counts->addresses += address, counts->files += file, counts->lines += line)
  NEXT;
a_special:
  address += special[opcode].advance;
  line += special[opcode].lines;
  ROW;
  NEXT;
extended: {
  uint64_t size = uleb(&at);
  place after = at + size;
  if (size == 0 || after > end) return;
  if (*at == 1) {
    ROW;
    counts->sequences++;
    address = 0, file = 1, line = 1;
  } else if (*at == 2) {
    address = number(at + 1, 8);
  }
  at = after;
  NEXT;
}
copy:
  ROW;
  NEXT;
advance_pc:
  address += minimum * uleb(&at);
  NEXT;
advance_line:
  line += sleb(&at);
  NEXT;
set_file:
  file = uleb(&at);
  NEXT;
uleb_operand:
  uleb(&at);
  NEXT;
const_add_pc:
  address += special[255].advance;
  NEXT;
fixed_advance_pc:
  address += number(at, 2);
  at += 2;
  NEXT;
quiet:
  NEXT;
}

int main(int count, char **words) {
  struct stat about;
  int file = count > 1 ? open(words[1], O_RDONLY) : -1;
  if (file < 0 || fstat(file, &about)) return 3;
  uint8_t *bytes = malloc(about.st_size + 64);
  for (off_t have = 0; have < about.st_size;) {
    ssize_t got = read(file, bytes + have, 1 << 20);
    if (got <= 0) return 3;
    have += got;
  }
  struct counts counts = {0};
  for (place at = bytes, all = bytes + about.st_size; at + 4 <= all;) {
    uint64_t length = number(at, 4), offset_size = 4;
    at += 4;
    if (length == 0xffffffff) length = number(at, 8), offset_size = 8, at += 8;
    place end = at + length, fields = at + 4 + offset_size;
    if (end > all || at[2] != 8 || fields[1] != 1) return 1;
    struct special special[256];
    unsigned range = fields[4], base = fields[5];
    for (unsigned opcode = base; opcode < 256; opcode++) {
      special[opcode].advance = fields[0] * ((opcode - base) / range);
      special[opcode].lines = (int8_t)fields[3] + (int)((opcode - base) % range);
    }
    counts.units++;
    run(fields + number(at + 4, offset_size), end, special, fields[0], base, &counts);
    at = end;
  }
  printf("units=%llu rows=%llu sequences=%llu addresses=%#llx files=%llu lines=%llu\n", (unsigned long long)counts.units,
         (unsigned long long)counts.rows, (unsigned long long)counts.sequences, (unsigned long long)counts.addresses,
         (unsigned long long)counts.files, (unsigned long long)counts.lines);
  return 0;
}
