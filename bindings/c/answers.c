/* Every field of the answers by its name, refusals that leave an answer as it was, and empty lists that are NULL. Prints what
   differs. */
#include "vareffect.h"
#include "vareffect_words.h"

#include <inttypes.h>
#include <stdio.h>
#include <string.h>

enum { PAINT = 0xa5 };

static int failed;

#define SAME(got, due)                                                                            \
  do {                                                                                            \
    if ((int64_t)(got) != (int64_t)(due)) {                                                       \
      failed++;                                                                                   \
      printf("line %d: %s is %" PRId64 ", not %s\n", __LINE__, #got, (int64_t)(got), #due);       \
    }                                                                                             \
  } while (0)

/* Introns of 30 bases and of 1; the CDS reaches from the first exon into the last. */
static const uint64_t starts[] = {100, 160, 191}, ends[] = {130, 190, 240}, seg_starts[] = {110, 160, 191}, seg_ends[] = {130, 190, 230};
static const uint8_t phases[] = {0, 1, 1};
static const uint16_t exons[] = {0, 1, 2};
static const VareffectTranscript coding = {
    .model = {.id = 7, .chromosome = 1, .exon_count = 3, .tx_start = 100, .tx_end = 240,
              .has_cds = true, .cds_start = 110, .cds_end = 230, .start_complete = true},
    .exon_starts = starts, .exon_ends = ends, .exons = 3,
    .seg_phases = phases, .seg_exons = exons, .seg_starts = seg_starts, .seg_ends = seg_ends, .segments = 3};

static void check_place(uint64_t at, int64_t kind, int64_t mark, int64_t index, int64_t segment, int64_t in_codon, int64_t distance, int64_t codon) {
  VareffectPlaceAnswer a, listed;
  SAME(vareffect_ask_place(&coding, 1, at, at + 1, &a), 0);
  SAME(a.refusal, 0);
  SAME(a.kind, kind);
  SAME(a.mark, mark);
  SAME(a.index, index);
  SAME(a.segment, segment);
  SAME(a.in_codon, in_codon);
  SAME(a.distance, distance);
  SAME(a.codon, codon);
  SAME(vareffect_ask_places(&coding, 1, &at, 1, &listed), 0);
  SAME(memcmp(&a, &listed, sizeof a), 0);
}

static void check_interval(uint64_t start, uint64_t end, int64_t side, int64_t distance, int64_t held, int64_t intron, int64_t donor, int64_t acceptor) {
  VareffectIntervalAnswer a;
  SAME(vareffect_ask_interval(&coding, 1, start, end, &a), 0);
  SAME(a.refusal, 0);
  SAME(a.side, side);
  SAME(a.distance, distance);
  SAME(a.in_short_intron, held);
  SAME(a.short_intron, intron);
  SAME(a.donor_spill, donor);
  SAME(a.acceptor_spill, acceptor);
}

static const VareffectBases empty = {.window = {.chromosome = 1, .first = 100}};
static const VareffectCall call = {.chromosome = 1, .ref_base = 'A', .alt_base = 'C', .position = 111};

/* A single call is answered whole, as in a list. */
static void check_call(void) {
  uint8_t bases[140];
  VareffectCallAnswer a, listed;
  memset(bases, 'A', sizeof bases);
  memset(&a, PAINT, sizeof a);
  const VareffectBases window = {empty.window, bases, sizeof bases};
  SAME(vareffect_ask_call(&coding, &window, call, &a), 0);
  SAME(a.place.refusal, 0);
  SAME(a.terms, 1 << 10);
  SAME(vareffect_ask_calls(&coding, &window, &call.chromosome, &call.position, &call.ref_base, &call.alt_base, 1, &listed), 0);
  SAME(memcmp(&a, &listed, sizeof a), 0);
}

static bool painted(const void *bytes, size_t len) {
  for (size_t i = 0; i < len; i++)
    if (((const uint8_t *)bytes)[i] != PAINT)
      return false;
  return true;
}

/* A refusal leaves the answer as it was. */
static void check_refused(void) {
  const VareffectTranscript none = {.model = coding.model};
  const uint16_t chromosomes[] = {1, 1};
  VareffectPlaceAnswer places[2];
  VareffectCallAnswer calls[2];
  VareffectIntervalAnswer interval;
  memset(places, PAINT, sizeof places);
  memset(calls, PAINT, sizeof calls);
  memset(&interval, PAINT, sizeof interval);
  SAME(vareffect_ask_admit(&none), 1);
  SAME(vareffect_ask_place(&none, 1, 111, 112, places), 1);
  SAME(vareffect_ask_place(&coding, 2, 111, 112, places), 14);
  SAME(vareffect_ask_places(&none, 1, seg_starts, 2, places), 1);
  SAME(painted(places, sizeof places), 1);
  SAME(vareffect_ask_call(&none, &empty, call, calls), 1);
  SAME(vareffect_ask_call(&coding, &empty, call, calls), 17);
  SAME(vareffect_ask_calls(&none, &empty, chromosomes, seg_starts, phases, phases, 2, calls), 1);
  SAME(painted(calls, sizeof calls), 1);
  SAME(vareffect_ask_interval(&none, 1, 111, 112, &interval), 1);
  SAME(vareffect_ask_interval(&coding, 1, 112, 111, &interval), 15);
  SAME(painted(&interval, sizeof interval), 1);
}

/* A refused question of an answered list has its number with zeros behind it. */
static void check_refused_in_list(void) {
  static const VareffectPlaceAnswer no_place = {.refusal = 15};
  static const VareffectCallAnswer no_call = {.place = {.refusal = 17}};
  const uint64_t positions[] = {111, UINT64_MAX};
  VareffectPlaceAnswer places[2];
  VareffectCallAnswer answer;
  memset(places, PAINT, sizeof places);
  memset(&answer, PAINT, sizeof answer);
  SAME(vareffect_ask_places(&coding, 1, positions, 2, places), 0);
  SAME(places[0].refusal, 0);
  SAME(memcmp(&places[1], &no_place, sizeof no_place), 0);
  SAME(vareffect_ask_calls(&coding, &empty, &call.chromosome, &call.position, &call.ref_base, &call.alt_base, 1, &answer), 0);
  SAME(memcmp(&answer, &no_call, sizeof no_call), 0);
}

static void check_empty_lists(void) {
  SAME(vareffect_lent(NULL, 0) != NULL, 1);
  SAME(vareffect_lent(starts, 2) == starts, 1);
  SAME(vareffect_ask_places(&coding, 1, NULL, 0, NULL), 0);
  SAME(vareffect_ask_calls(&coding, &empty, NULL, NULL, NULL, NULL, 0, NULL), 0);
}

static void check_outcomes(void) {
  static VareffectDeckTranscript held;
  uint8_t line[VAREFFECT_LINE] = {0};
  VareffectOutcome o = vareffect_ask_line(&coding, &empty, call, 9, line);
  SAME(o.number, 0);
  SAME(o.value, 7);
  SAME(strcmp((char *)line, "9 7 17\n"), 0);
  memset(&held, PAINT, sizeof held);
  SAME(vareffect_read_transcript(NULL, 0, 0, &held).number, 22);
  SAME(painted(&held, sizeof held), 1);
  SAME(vareffect_abi(), VAREFFECT_ABI);
}

static const struct {
  uint64_t kind;
  const char *name;
} kinds[] = {{VAREFFECT_UPSTREAM, "Upstream"}, {VAREFFECT_DOWNSTREAM, "Downstream"}, {VAREFFECT_DISTAL, "Distal"},
             {VAREFFECT_FIVE_PRIME_UTR, "FivePrimeUtr"}, {VAREFFECT_CDS_EXON, "CdsExon"},
             {VAREFFECT_THREE_PRIME_UTR, "ThreePrimeUtr"}, {VAREFFECT_SPLICE_DONOR, "SpliceDonor"},
             {VAREFFECT_SPLICE_ACCEPTOR, "SpliceAcceptor"}, {VAREFFECT_SPLICE_REGION, "SpliceRegion"},
             {VAREFFECT_INTRON, "Intron"}, {VAREFFECT_FRAMESHIFT_INTRON, "FrameshiftIntron"},
             {VAREFFECT_NON_CODING_EXON, "NonCodingExon"}, {VAREFFECT_NON_CODING_INTRON, "NonCodingIntron"}};

/* Every number has a text, and those that are not known share one. */
static void check_words(void) {
  for (size_t i = 0; i < sizeof kinds / sizeof *kinds; i++)
    SAME(strcmp(vareffect_place_name(kinds[i].kind), kinds[i].name), 0);
  SAME(strcmp(vareffect_term_name(28), "intergenic_variant"), 0);
  SAME(strcmp(vareffect_term_name(0), vareffect_term_name(29)), 0);
  SAME(strcmp(vareffect_place_name(13), vareffect_place_name(UINT64_MAX)), 0);
  for (uint64_t n = 0; n <= 28; n++) {
    SAME(strcmp(vareffect_refusal_cause(n), vareffect_refusal_cause(29)) != 0, 1);
    SAME(strcmp(vareffect_refusal_advice(n), vareffect_refusal_advice(UINT64_MAX)) != 0, 1);
  }
}

int main(void) {
  check_place(111, VAREFFECT_CDS_EXON, 0, 0, 0, 1, 1, 1);
  check_place(189, VAREFFECT_CDS_EXON, 1, 1, 1, 1, 49, 17);
  check_place(105, VAREFFECT_FIVE_PRIME_UTR, 0, 0, 0, 0, -5, 0);
  check_place(190, VAREFFECT_FRAMESHIFT_INTRON, 0, 1, 0, 0, 1, 0);
  check_place(158, VAREFFECT_SPLICE_ACCEPTOR, 0, 0, 0, 0, 2, 0);
  check_place(155, VAREFFECT_SPLICE_REGION, 1, 0, 0, 0, -5, 0);
  check_interval(90, 95, 1, 6, 0, 0, 0, 0);
  check_interval(190, 191, 0, 0, 1, 1, 0, 0);
  check_interval(245, 246, 2, 6, 0, 0, 0, 0);
  check_interval(189, 190, 0, 0, 0, 0, 0, 1);
  check_interval(191, 192, 0, 0, 0, 0, 1, 0);
  check_call();
  check_refused();
  check_refused_in_list();
  check_empty_lists();
  check_outcomes();
  check_words();
  return failed != 0;
}
