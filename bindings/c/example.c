/* A transcript of two exons, its window and three calls: prints the lines that the lister prints, from the fields of the answers. */
#include "vareffect.h"
#include "vareffect_words.h"

#include <inttypes.h>
#include <stdio.h>
#include <string.h>

/* `number` or `number/total`, or `-` where there is none. */
static void print_count(int64_t number, int64_t total) {
  if (number == 0)
    printf(" -");
  else
    printf(total == 0 ? " %" PRId64 : " %" PRId64 "/%" PRId64, number, total);
}

static void print_line(int line, uint32_t id, const VareffectCallAnswer *a) {
  printf("%d %" PRIu32 " %" PRId64, line, id, a->place.refusal);
  if (a->place.refusal == 0) {
    char codons[8], letters[4], before = ' ';
    vareffect_codons_text(a, codons);
    vareffect_letters_text(a, letters);
    printf(" %s", vareffect_place_name((uint64_t)a->place.kind));
    print_count(a->exon, a->exons);
    print_count(a->intron, a->introns);
    print_count(a->cds_position, 0);
    print_count(a->cdna_position, 0);
    print_count(a->protein_start, 0);
    printf(" %s %s", codons, letters);
    for (uint64_t rank = 1; rank <= 28; rank++)
      if (a->terms >> (rank - 1) & 1) {
        printf("%c%s", before, vareffect_term_name(rank));
        before = ',';
      }
  }
  putchar('\n');
}

int main(void) {
  /* Exons [100,130) and [160,190), CDS [110,170), phases 0 and 1, start complete, no selenocysteine. */
  const uint64_t exon_starts[] = {100, 160}, exon_ends[] = {130, 190};
  const uint64_t seg_starts[] = {110, 160}, seg_ends[] = {130, 170};
  const uint8_t phases[] = {0, 1};
  const uint16_t exons[] = {0, 1};
  const VareffectTranscript t = {
      .model = {.id = 7, .chromosome = 1, .exon_count = 2, .tx_start = 100, .tx_end = 190,
                .has_cds = true, .cds_start = 110, .cds_end = 170, .start_complete = true},
      .exon_starts = exon_starts, .exon_ends = exon_ends, .exons = 2,
      .seg_phases = phases, .seg_exons = exons, .seg_starts = seg_starts, .seg_ends = seg_ends, .segments = 2};

  /* 90 bases from coordinate 100: all A save T at 111 and 167, G at 112 and 128. */
  uint8_t bases[90];
  memset(bases, 'A', sizeof bases);
  bases[11] = bases[67] = 'T';
  bases[12] = bases[28] = 'G';
  const VareffectBases window = {.window = {.chromosome = 1, .first = 100}, .bases = bases, .len = sizeof bases};

  const uint16_t chromosomes[] = {1, 1, 1};
  const uint64_t positions[] = {111, 129, 130};
  const uint8_t refs[] = {'T', 'A', 'A'}, alts[] = {'C', 'C', 'G'};
  VareffectCallAnswer answers[3];
  uint8_t refusal = vareffect_ask_calls(&t, &window, chromosomes, positions, refs, alts, 3, answers);
  if (refusal != 0) {
    fprintf(stderr, "refused, number %d: %s\n", refusal, vareffect_refusal_cause(refusal));
    return 1;
  }
  for (int i = 0; i < 3; i++)
    print_line(i + 1, t.model.id, &answers[i]);
  return 0;
}
