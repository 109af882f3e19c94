/* The proved library libinterface.a for C and C++: where a base falls on a
   transcript, and what a single-base call does there. x86-64 Linux.

   Coordinates count from 0, ends are not included. Chromosomes are 1 to 25
   (23 X, 24 Y, 25 M). Exons, segments and selenocysteine bases stand in strand
   order: on the minus strand the highest exon comes first.

   Refusals. Every question is answered, or refused by a number from 1 to 28:
   vareffect_words.h has a text for each, docs/MANUAL.md the whole. 0 is none.

   Threads. Nothing is global and nothing is kept after a call: all functions
   may be called from any number of threads at once.

   Stack. Beside what the caller itself keeps there, vareffect_list needs at most
   VAREFFECT_LIST_STACK bytes of the caller's stack, and every other function at
   most VAREFFECT_STACK. */
#ifndef VAREFFECT_H
#define VAREFFECT_H

#include <stdbool.h>
#include <stddef.h>
#include <stdint.h>

/* The version of what follows. Compare it once with the library's:
   if (vareffect_abi() != VAREFFECT_ABI) the header is another release's. */
#define VAREFFECT_ABI 2
#define VAREFFECT_STACK 131072
#define VAREFFECT_LIST_STACK 196608
/* No printed line is longer, newline included. */
#define VAREFFECT_LINE 1553

#ifdef __cplusplus
extern "C" {
#endif

/* ---- Questions and answers ---- */

/* A transcript without its lists. A bool is the byte 0 or 1. Without CDS has_cds
   is false, and cds_start and cds_end are not read. start_complete: whether the
   annotation marks the start of the CDS as complete (a GFF3 without cds_start_NF). */
typedef struct VareffectModel {
  uint32_t id;
  uint16_t chromosome, exon_count;
  uint64_t tx_start, tx_end, cds_start, cds_end;
  bool minus, has_cds, start_complete;
} VareffectModel;

/* A transcript. Segments are the exons cut to the CDS: GFF3 phase, index of the
   exon from 0, start, end. selenocysteine has a base of each such codon. */
typedef struct VareffectTranscript {
  VareffectModel model;
  const uint64_t *exon_starts, *exon_ends;
  size_t exons; /* length of both */
  const uint8_t *seg_phases;
  const uint16_t *seg_exons;
  const uint64_t *seg_starts, *seg_ends;
  size_t segments; /* length of all four */
  const uint64_t *selenocysteine;
  size_t selenocysteines;
} VareffectTranscript;

/* Where a window begins. */
typedef struct VareffectWindow {
  uint16_t chromosome;
  uint64_t first;
} VareffectWindow;

/* A window with its bases: of the plus strand, one byte each. */
typedef struct VareffectBases {
  VareffectWindow window;
  const uint8_t *bases;
  size_t len;
} VareffectBases;

/* A change of one base, as on the plus strand. */
typedef struct VareffectCall {
  uint16_t chromosome;
  uint8_t ref_base, alt_base;
  uint64_t position;
} VareffectCall;

/* Kinds of a place. */
enum {
  VAREFFECT_UPSTREAM, VAREFFECT_DOWNSTREAM, VAREFFECT_DISTAL,
  VAREFFECT_FIVE_PRIME_UTR, VAREFFECT_CDS_EXON, VAREFFECT_THREE_PRIME_UTR,
  VAREFFECT_SPLICE_DONOR, VAREFFECT_SPLICE_ACCEPTOR, VAREFFECT_SPLICE_REGION,
  VAREFFECT_INTRON, VAREFFECT_FRAMESHIFT_INTRON,
  VAREFFECT_NON_CODING_EXON, VAREFFECT_NON_CODING_INTRON
};

/* A place: the 8 words of vareffect_place. What a place does not have is 0. */
typedef struct VareffectPlaceAnswer {
  int64_t refusal;
  int64_t kind;     /* VAREFFECT_UPSTREAM and so on */
  int64_t mark;     /* 1: in the splice region of an exon; of a splice region 0 donor, 1 acceptor */
  int64_t index;    /* exon or intron from 0, 5' first */
  int64_t segment;  /* CDS segment from 0 */
  int64_t in_codon; /* place in the codon, 0 to 2 */
  int64_t distance; /* to the transcript, from 1; to the CDS, in a 5' UTR negative; to the nearest exon, negative
                       before it; of a CDS base its padded offset from 0 */
  int64_t codon;    /* codon number from 1 */
} VareffectPlaceAnswer;

/* A call: the 20 words of vareffect_call. */
typedef struct VareffectCallAnswer {
  VareffectPlaceAnswer place;
  int64_t exon, exons, intron, introns; /* number from 1, 0 where absent, and of how many */
  int64_t cds_position, cdna_position;  /* from 1, 0 where absent; the first counts the pad of an incomplete start */
  int64_t protein_start;                /* codon number from 1, 0 where absent */
  int64_t ref_codon, alt_codon;         /* length + 256 * first byte + 65536 * second + 16777216 * third; 0 where absent */
  int64_t changed;                      /* place of the changed base in the codon */
  int64_t letters; /* 1 + 256 * letter, or 2 + 256 * reference + 65536 * altered; 0 where absent. NCBI's genetic code table 1,
                      on chromosome 25 table 2 */
  int64_t terms;   /* bit (severity rank - 1) for each term */
} VareffectCallAnswer;

/* An interval: the 7 words of vareffect_interval. */
typedef struct VareffectIntervalAnswer {
  int64_t refusal;
  int64_t side;            /* 0 overlaps, 1 upstream, 2 downstream, 3 far */
  int64_t distance;        /* to the transcript */
  int64_t in_short_intron; /* 1: an end lies in an intron of 1 to 13 bases */
  int64_t short_intron;    /* that intron's index */
  int64_t donor_spill, acceptor_spill; /* 1: that splice window of a short intron is reached from the exon */
} VareffectIntervalAnswer;

/* A number, 0 or a refusal, and a value. */
typedef struct VareffectOutcome {
  uint64_t number, value;
} VareffectOutcome;

/* A transcript taken from a deck, 18 KiB; vareffect_lend lends it. */
typedef struct VareffectDeckTranscript {
  uint64_t scalars[12];
  uint64_t exon_starts[512], exon_ends[512];
  uint8_t seg_phases[512];
  uint16_t seg_exons[512];
  uint64_t seg_starts[512], seg_ends[512];
  uint64_t selenocysteine[64];
} VareffectDeckTranscript;

/* ---- The library's functions ----

   A list is a pointer and its number of elements; with 0 elements the pointer
   is not read, but is not NULL. What is written (out, ids, cursor and the
   arrays of vareffect_deck_transcript) may overlap nothing else that is lent. A
   refusal leaves all of it as it was. Lists that must be of one length and are
   not, or a buffer of another length than asked, are refusal 1. */

#define VAREFFECT_LISTS                                                         \
  const uint64_t *exon_starts, size_t exon_starts_len,                          \
      const uint64_t *exon_ends, size_t exon_ends_len,                          \
      const uint8_t *seg_phases, size_t seg_phases_len,                         \
      const uint16_t *seg_exons, size_t seg_exons_len,                          \
      const uint64_t *seg_starts, size_t seg_starts_len,                        \
      const uint64_t *seg_ends, size_t seg_ends_len,                            \
      const uint64_t *selenocysteine, size_t selenocysteine_len

/* The library's VAREFFECT_ABI. */
uint64_t vareffect_abi(void);

/* Is the transcript admitted? 0, or 1 to 13. */
uint8_t vareffect_admit(VareffectModel model, VAREFFECT_LISTS);

/* The place of the base at start; an empty [start, end) is refused by 15. */
uint8_t vareffect_place(uint16_t chromosome, uint64_t start, uint64_t end,
                        VareffectModel model, VAREFFECT_LISTS, int64_t out[8]);

/* The places of many bases, 8 words for each; only the transcript is refused as
   a whole. */
uint8_t vareffect_places(uint16_t chromosome, const uint64_t *positions, size_t positions_len,
                         VareffectModel model, VAREFFECT_LISTS, int64_t *out, size_t out_len);

/* What a call does. */
uint8_t vareffect_call(VareffectWindow window, const uint8_t *bases, size_t bases_len,
                       VareffectCall call, VareffectModel model, VAREFFECT_LISTS, int64_t out[20]);

/* Many calls, as four lists of one length: 20 words for each. */
uint8_t vareffect_calls(VareffectWindow window, const uint8_t *bases, size_t bases_len,
                        const uint16_t *chromosomes, size_t chromosomes_len,
                        const uint64_t *positions, size_t positions_len,
                        const uint8_t *refs, size_t refs_len, const uint8_t *alts, size_t alts_len,
                        VareffectModel model, VAREFFECT_LISTS, int64_t *out, size_t out_len);

/* About [start, end); an empty one is an insertion before start, and answered. */
uint8_t vareffect_interval(uint16_t chromosome, uint64_t start, uint64_t end,
                           VareffectModel model, VAREFFECT_LISTS, int64_t out[7]);

/* The lister's line of a call on a transcript, newline included, under a line
   number; a refused call gives the line of its refusal. 0 and the length, or 28
   and 0 where it does not fit. */
VareffectOutcome vareffect_line(uint64_t number, VareffectWindow window, const uint8_t *bases,
                                size_t bases_len, VareffectCall call, VareffectModel model,
                                VAREFFECT_LISTS, uint8_t *out, size_t out_len);

/* Is a deck (docs/MANUAL.md, "deck.bin") accepted? 0 and 0, or the refusal and
   the record at fault. */
VareffectOutcome vareffect_check_deck(const uint8_t *bytes, size_t bytes_len);

/* 0 and how many transcripts the deck has, their ids stored as far as `ids`
   reaches; or the refusal and the record. */
VareffectOutcome vareffect_deck_ids(const uint8_t *bytes, size_t bytes_len, uint32_t *ids, size_t ids_len);

/* The deck's transcript at a place from 0: 0 and how many transcripts there are;
   or the refusal and the record; or 25 and 0 where there is none at that place.
   scalars: id, chromosome, minus, exons, tx_start, tx_end, has_cds, cds_start,
   cds_end, start_complete, segments, selenocysteine bases. */
VareffectOutcome vareffect_deck_transcript(const uint8_t *bytes, size_t bytes_len, uint64_t place,
                                           uint64_t scalars[12], uint64_t exon_starts[512],
                                           uint64_t exon_ends[512], uint8_t seg_phases[512],
                                           uint16_t seg_exons[512], uint64_t seg_starts[512],
                                           uint64_t seg_ends[512], uint64_t selenocysteine[64]);

/* The next piece of what the lister prints for a deck file, a window file and a
   call file: as many whole lines as fit into `out`; 0 and their length. Begin
   with the cursor {0, 0, 0}; it is moved on, and its third word is 1 with the
   last piece. 28 and 0 where not even the next line fits (VAREFFECT_LINE bytes
   hold any). A refused file is a line "0 record number". Each call reads the
   deck anew: lend a large buffer. Needs VAREFFECT_LIST_STACK bytes of stack. */
VareffectOutcome vareffect_list(const uint8_t *deck, size_t deck_len, const uint8_t *window,
                                size_t window_len, const uint8_t *calls, size_t calls_len,
                                uint64_t cursor[3], uint8_t *out, size_t out_len);

#ifdef __cplusplus
}
#endif

#include "vareffect_ask.h"

#endif
