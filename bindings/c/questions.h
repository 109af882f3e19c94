/* Every function of the library asked what goes deepest, for stack.c and threads.c: a transcript of 512 exons on each strand
   and two full decks with their listings. */
#include "inputs.h"

enum { ROOM = 1 << 20 };

/* The answers to one question as bytes, and whether one was refused. */
typedef struct Asked {
  int64_t words[ROOM / 8];
  uint8_t *text; /* the same bytes */
  size_t len;
  uint64_t refused;
  int turn; /* 1: the second transcript or deck is asked first */
} Asked;

static Asked *new_asked(int turn) {
  Asked *a = (Asked *)calloc(1, sizeof *a);
  if (a == NULL)
    exit(2);
  a->text = (uint8_t *)a->words;
  a->turn = turn;
  return a;
}

static void put_number(Asked *a, uint64_t number) { a->words[a->len / 8] = (int64_t)number, a->len += 8; }

static void put_outcome(Asked *a, VareffectOutcome o) {
  a->refused |= o.number;
  put_number(a, o.value);
}

static void ask_abi(Asked *a) { put_number(a, vareffect_abi()); }

static void ask_admit(Asked *a) {
  for (int k = 0; k < 2; k++)
    a->refused |= vareffect_ask_admit(&transcripts[k ^ a->turn]);
}

static void ask_place(Asked *a) {
  for (int i = 0; i < 2 * POSITIONS; i++, a->len += 64)
    a->refused |= vareffect_ask_place(&transcripts[i % 2 ^ a->turn], 1, positions[i / 2], positions[i / 2] + 1,
                                      (VareffectPlaceAnswer *)(a->text + a->len));
}

static void ask_places(Asked *a) {
  for (int k = 0; k < 2; k++, a->len += 64 * POSITIONS)
    a->refused |= vareffect_ask_places(&transcripts[k ^ a->turn], 1, positions, POSITIONS, (VareffectPlaceAnswer *)(a->text + a->len));
}

static void ask_call(Asked *a) {
  for (int i = 0; i < 2 * POSITIONS; i++, a->len += 160) {
    VareffectCall call = {1, refs[i / 2], alts[i / 2], positions[i / 2]};
    a->refused |= vareffect_ask_call(&transcripts[i % 2 ^ a->turn], &window, call, (VareffectCallAnswer *)(a->text + a->len));
  }
}

static void ask_calls(Asked *a) {
  for (int k = 0; k < 2; k++, a->len += 160 * POSITIONS)
    a->refused |= vareffect_ask_calls(&transcripts[k ^ a->turn], &window, chromosomes, positions, refs, alts, POSITIONS,
                                      (VareffectCallAnswer *)(a->text + a->len));
}

static void ask_interval(Asked *a) {
  for (int i = 0; i < 2 * POSITIONS; i++, a->len += 56)
    a->refused |= vareffect_ask_interval(&transcripts[i % 2 ^ a->turn], 1, positions[i / 2], positions[i / 2] + (uint64_t)i % 80,
                                         (VareffectIntervalAnswer *)(a->text + a->len));
}

static void ask_line(Asked *a) {
  for (int i = 0; i < 2 * POSITIONS; i++) {
    VareffectCall call = {1, refs[i / 2], alts[i / 2], positions[i / 2]};
    VareffectOutcome o = vareffect_ask_line(&transcripts[i % 2 ^ a->turn], &window, call, UINT64_MAX, a->text + a->len);
    a->refused |= o.number;
    a->len += o.value;
  }
}

static void ask_check_deck(Asked *a) {
  for (int k = 0; k < 2; k++)
    put_outcome(a, vareffect_check_deck(files[k ^ a->turn][0].bytes, files[k ^ a->turn][0].len));
}

static void ask_deck_ids(Asked *a) {
  for (int k = 0; k < 2; k++, a->len += 8192)
    put_outcome(a, vareffect_deck_ids(files[k ^ a->turn][0].bytes, files[k ^ a->turn][0].len, (uint32_t *)(a->text + a->len + 8), 2048));
}

static void ask_deck_transcript(Asked *a) {
  for (int k = 0; k < 2; k++)
    for (uint64_t place = 0; place < 8; place += 7, a->len += sizeof(VareffectDeckTranscript)) {
      VareffectDeckTranscript *into = (VareffectDeckTranscript *)(a->text + a->len + 8);
      put_outcome(a, vareffect_read_transcript(files[k ^ a->turn][0].bytes, files[k ^ a->turn][0].len, place, into));
    }
}

/* Both listings, in pieces. */
static void ask_list(Asked *a) {
  for (int k = 0; k < 2; k++) {
    uint64_t cursor[3] = {0, 0, 0};
    const File *f = files[k ^ a->turn];
    while (cursor[2] == 0 && a->refused == 0) {
      VareffectOutcome o = vareffect_list(f[0].bytes, f[0].len, f[1].bytes, f[1].len, f[2].bytes, f[2].len, cursor,
                                          a->text + a->len, 100000);
      a->refused |= o.number;
      a->len += o.value;
    }
  }
}

static const struct Question {
  const char *name;
  void (*ask)(Asked *);
  size_t stack; /* the bytes that the header states */
} questions[] = {{"vareffect_abi", ask_abi, VAREFFECT_STACK}, {"vareffect_admit", ask_admit, VAREFFECT_STACK},
                 {"vareffect_place", ask_place, VAREFFECT_STACK}, {"vareffect_places", ask_places, VAREFFECT_STACK},
                 {"vareffect_call", ask_call, VAREFFECT_STACK}, {"vareffect_calls", ask_calls, VAREFFECT_STACK},
                 {"vareffect_interval", ask_interval, VAREFFECT_STACK}, {"vareffect_line", ask_line, VAREFFECT_STACK},
                 {"vareffect_check_deck", ask_check_deck, VAREFFECT_STACK}, {"vareffect_deck_ids", ask_deck_ids, VAREFFECT_STACK},
                 {"vareffect_deck_transcript", ask_deck_transcript, VAREFFECT_STACK}, {"vareffect_list", ask_list, VAREFFECT_LIST_STACK}};
enum { QUESTIONS = sizeof questions / sizeof *questions };
