/* The questions of vareffect.h with structs instead of lists and words. Include
   vareffect.h, which includes this.

   Every question returns 0 and writes the whole answer, or returns the refusal's
   number and leaves the answer as it was. So the answer to a single question has
   `refusal` 0. In a list each answer has its own, and where that is not 0 the
   rest of the answer is 0. A list of length 0 may be NULL. What is written may
   overlap nothing else. */
#ifndef VAREFFECT_ASK_H
#define VAREFFECT_ASK_H

#include "vareffect.h"

/* The list, or a valid pointer where it has no elements. */
static inline const void *vareffect_lent(const void *list, size_t len) {
  static const uint64_t nothing = 0;
  return len == 0 ? &nothing : list;
}

/* A list of the given type, and a transcript's lists, as the exports take them. */
#define VAREFFECT_LENT(type, list, len) (const type *)vareffect_lent(list, len), len
#define VAREFFECT_LENT_LISTS(t)                                                 \
  VAREFFECT_LENT(uint64_t, (t)->exon_starts, (t)->exons),                       \
      VAREFFECT_LENT(uint64_t, (t)->exon_ends, (t)->exons),                     \
      VAREFFECT_LENT(uint8_t, (t)->seg_phases, (t)->segments),                  \
      VAREFFECT_LENT(uint16_t, (t)->seg_exons, (t)->segments),                  \
      VAREFFECT_LENT(uint64_t, (t)->seg_starts, (t)->segments),                 \
      VAREFFECT_LENT(uint64_t, (t)->seg_ends, (t)->segments),                   \
      VAREFFECT_LENT(uint64_t, (t)->selenocysteine, (t)->selenocysteines)

/* Is the transcript admitted? */
static inline uint8_t vareffect_ask_admit(const VareffectTranscript *t) {
  return vareffect_admit(t->model, VAREFFECT_LENT_LISTS(t));
}

/* Where the base at start falls; [start, end) is not empty. */
static inline uint8_t vareffect_ask_place(const VareffectTranscript *t, uint16_t chromosome,
                                          uint64_t start, uint64_t end, VareffectPlaceAnswer *answer) {
  return vareffect_place(chromosome, start, end, t->model, VAREFFECT_LENT_LISTS(t), (int64_t *)answer);
}

/* Where each of count bases falls; the number is the transcript's refusal. */
static inline uint8_t vareffect_ask_places(const VareffectTranscript *t, uint16_t chromosome,
                                           const uint64_t *positions, size_t count,
                                           VareffectPlaceAnswer *answers) {
  int64_t none = 0;
  return vareffect_places(chromosome, VAREFFECT_LENT(uint64_t, positions, count), t->model,
                          VAREFFECT_LENT_LISTS(t), count == 0 ? &none : (int64_t *)answers, 8 * count);
}

/* What a call does. */
static inline uint8_t vareffect_ask_call(const VareffectTranscript *t, const VareffectBases *w,
                                         VareffectCall call, VareffectCallAnswer *answer) {
  return vareffect_call(w->window, VAREFFECT_LENT(uint8_t, w->bases, w->len), call, t->model,
                        VAREFFECT_LENT_LISTS(t), (int64_t *)answer);
}

/* What each of count calls does, given as four lists; the number is the transcript's refusal. */
static inline uint8_t vareffect_ask_calls(const VareffectTranscript *t, const VareffectBases *w,
                                          const uint16_t *chromosomes, const uint64_t *positions,
                                          const uint8_t *refs, const uint8_t *alts, size_t count,
                                          VareffectCallAnswer *answers) {
  int64_t none = 0;
  return vareffect_calls(
      w->window, VAREFFECT_LENT(uint8_t, w->bases, w->len), VAREFFECT_LENT(uint16_t, chromosomes, count),
      VAREFFECT_LENT(uint64_t, positions, count), VAREFFECT_LENT(uint8_t, refs, count),
      VAREFFECT_LENT(uint8_t, alts, count), t->model, VAREFFECT_LENT_LISTS(t),
      count == 0 ? &none : (int64_t *)answers, 20 * count);
}

/* About [start, end); start equal to end is an insertion before start. */
static inline uint8_t vareffect_ask_interval(const VareffectTranscript *t, uint16_t chromosome,
                                             uint64_t start, uint64_t end, VareffectIntervalAnswer *answer) {
  return vareffect_interval(chromosome, start, end, t->model, VAREFFECT_LENT_LISTS(t), (int64_t *)answer);
}

/* The lister's line of a call: 0 and its length, or 28 and 0. */
static inline VareffectOutcome vareffect_ask_line(const VareffectTranscript *t, const VareffectBases *w,
                                                  VareffectCall call, uint64_t number,
                                                  uint8_t line[VAREFFECT_LINE]) {
  return vareffect_line(number, w->window, VAREFFECT_LENT(uint8_t, w->bases, w->len), call, t->model,
                        VAREFFECT_LENT_LISTS(t), line, VAREFFECT_LINE);
}

/* The codons as the lister prints them, `gAa/gCa` with the changed base as it stands and the others
   small, or `-` where there are none, with a NUL behind; returns the length. */
static inline size_t vareffect_codons_text(const VareffectCallAnswer *a, char text[8]) {
  const int64_t codons[2] = {a->ref_codon, a->alt_codon};
  size_t len = 0;
  for (int k = 0; k < 2; k++) {
    for (int i = 0; i < (codons[k] & 255); i++) {
      int base = (int)(codons[k] >> (8 * i + 8) & 255);
      text[len++] = (char)(i != a->changed && base >= 'A' && base <= 'Z' ? base + 32 : base);
    }
    if (k == 0)
      text[len++] = a->ref_codon == 0 ? '-' : '/';
  }
  text[len] = 0;
  return len;
}

/* The letters as the lister prints them, `E`, `E/A` or `-`, with a NUL behind; returns the length. */
static inline size_t vareffect_letters_text(const VareffectCallAnswer *a, char text[4]) {
  size_t len = (a->letters & 255) == 2 ? 3 : 1;
  text[0] = a->letters == 0 ? '-' : (char)(a->letters >> 8 & 255);
  text[1] = '/';
  text[2] = (char)(a->letters >> 16 & 255);
  text[len] = 0;
  return len;
}

/* The deck's transcript at a place from 0: outcomes as of vareffect_deck_transcript. */
static inline VareffectOutcome vareffect_read_transcript(const uint8_t *deck, size_t deck_len, uint64_t place,
                                                         VareffectDeckTranscript *into) {
  return vareffect_deck_transcript(VAREFFECT_LENT(uint8_t, deck, deck_len), place, into->scalars,
                                   into->exon_starts, into->exon_ends, into->seg_phases, into->seg_exons,
                                   into->seg_starts, into->seg_ends, into->selenocysteine);
}

/* The transcript as the questions take it, as long as `from` stays. */
static inline VareffectTranscript vareffect_lend(const VareffectDeckTranscript *from) {
  const uint64_t *s = from->scalars;
  VareffectTranscript t;
  t.model.id = (uint32_t)s[0];
  t.model.chromosome = (uint16_t)s[1];
  t.model.minus = s[2] == 1;
  t.model.exon_count = (uint16_t)s[3];
  t.model.tx_start = s[4];
  t.model.tx_end = s[5];
  t.model.has_cds = s[6] == 1;
  t.model.cds_start = s[7];
  t.model.cds_end = s[8];
  t.model.start_complete = s[9] == 1;
  t.exon_starts = from->exon_starts;
  t.exon_ends = from->exon_ends;
  t.exons = (size_t)s[3];
  t.seg_phases = from->seg_phases;
  t.seg_exons = from->seg_exons;
  t.seg_starts = from->seg_starts;
  t.seg_ends = from->seg_ends;
  t.segments = (size_t)s[10];
  t.selenocysteine = from->selenocysteine;
  t.selenocysteines = (size_t)s[11];
  return t;
}

/* The window of a window file (docs/MANUAL.md, "window.bin"), lent from it; 27
   where the file is shorter than 10 or longer than 65,536 bytes. */
static inline uint8_t vareffect_read_window(const uint8_t *file, size_t len, VareffectBases *into) {
  if (len < 10 || len > 65536)
    return 27;
  into->window.chromosome = (uint16_t)(file[0] | file[1] << 8);
  into->window.first = 0;
  for (int i = 9; i > 1; i--)
    into->window.first = into->window.first << 8 | file[i];
  into->bases = file + 10;
  into->len = len - 10;
  return 0;
}

#endif
