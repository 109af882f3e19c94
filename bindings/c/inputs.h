/* The inputs of questions.h: a transcript of 512 exons on each strand, its window and calls, and the files of two folders. */
#include "vareffect.h"

#include <stdio.h>
#include <stdlib.h>
#include <string.h>

enum { EXONS = 512, BASES = 64, POSITIONS = 1024 };

typedef struct File {
  uint8_t bytes[65536];
  size_t len;
} File;

/* Written by prepare, then only read. */
static uint64_t starts[2][EXONS], ends[2][EXONS], seg_starts[2][EXONS], seg_ends[2][EXONS], seleno[BASES], positions[POSITIONS];
static uint16_t exons[EXONS], chromosomes[POSITIONS];
static uint8_t phases[2][EXONS], bases[EXONS * 120], refs[POSITIONS], alts[POSITIONS];
static VareffectTranscript transcripts[2];
static VareffectBases window;
static File files[2][3]; /* deck, window, calls */

/* Exons of 70 bases with gaps of 50, the first and the last 10 bases not coding. */
static void make_transcript(int minus) {
  uint64_t coded = 0, low = 1000, high = 1000 + 120 * EXONS - 50;
  for (int i = 0; i < EXONS; i++) {
    uint64_t start = low + 120 * (uint64_t)(minus ? EXONS - 1 - i : i), end = start + 70;
    starts[minus][i] = start;
    ends[minus][i] = end;
    seg_starts[minus][i] = start == low ? start + 10 : start;
    seg_ends[minus][i] = end == high ? end - 10 : end;
    phases[minus][i] = (uint8_t)((3 - coded % 3) % 3);
    coded += seg_ends[minus][i] - seg_starts[minus][i];
    exons[i] = (uint16_t)i;
  }
  VareffectModel model = {7, 1, EXONS, low, high, low + 10, high - 10, minus == 1, true, true};
  VareffectTranscript t = {model, starts[minus], ends[minus], EXONS, phases[minus], exons,
                           seg_starts[minus], seg_ends[minus], EXONS, seleno, BASES};
  transcripts[minus] = t;
}

static void read_file(const char *folder, const char *name, File *into) {
  char path[4096];
  snprintf(path, sizeof path, "%s/%s", folder, name);
  FILE *file = fopen(path, "rb");
  if (file == NULL || (into->len = fread(into->bytes, 1, sizeof into->bytes, file)) == 0) {
    perror(path);
    exit(2);
  }
  fclose(file);
}

/* From two folders with deck.bin, window.bin and calls. */
static void prepare(char **folders) {
  for (size_t i = 0; i < sizeof bases; i++)
    bases[i] = (uint8_t)"ACGTTGCAAC"[i % 10];
  for (int i = 0; i < BASES; i++)
    seleno[i] = 1030 + 120 * (uint64_t)i;
  for (size_t i = 0; i < POSITIONS; i++) {
    positions[i] = 1000 + 60 * i;
    chromosomes[i] = 1;
    refs[i] = bases[60 * i];
    alts[i] = refs[i] == 'A' ? 'C' : 'A';
  }
  window = (VareffectBases){{1, 1000}, bases, sizeof bases};
  for (int i = 0; i < 2; i++) {
    make_transcript(i);
    read_file(folders[i], "deck.bin", &files[i][0]);
    read_file(folders[i], "window.bin", &files[i][1]);
    read_file(folders[i], "calls", &files[i][2]);
  }
}
