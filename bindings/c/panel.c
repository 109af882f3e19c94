/* panel [DECK WINDOW [CHROMOSOME POSITION REF ALT]]: the transcripts of a deck file, and what a call does on each. */
#include "vareffect.h"
#include "vareffect_words.h"

#include <stdio.h>
#include <stdlib.h>

/* A file of at most 65,536 bytes, and one more to tell that it is longer. */
static size_t read_file(const char *path, uint8_t bytes[65537]) {
  FILE *file = fopen(path, "rb");
  if (file == NULL) {
    perror(path);
    exit(2);
  }
  return fread(bytes, 1, 65537, file);
}

static int refuse(uint64_t number) {
  printf("cause: %s\nwhat to do: %s\n", vareffect_refusal_cause(number), vareffect_refusal_advice(number));
  return 1;
}

int main(int count, char **words) {
  static uint8_t deck[65537], file[65537];
  static VareffectDeckTranscript held;
  size_t deck_len = read_file(count > 1 ? words[1] : "demo/panel/deck.bin", deck);
  size_t file_len = read_file(count > 2 ? words[2] : "demo/panel/window.bin", file);
  VareffectCall call;
  call.chromosome = count > 3 ? (uint16_t)atoi(words[3]) : 7;
  call.position = count > 4 ? strtoull(words[4], NULL, 10) : 20318;
  call.ref_base = count > 5 ? (uint8_t)*words[5] : 'A';
  call.alt_base = count > 6 ? (uint8_t)*words[6] : 'G';
  VareffectOutcome deal = vareffect_read_transcript(deck, deck_len, 0, &held);
  if (deal.number != 0) {
    printf("deck refused, number %d at record %d\n", (int)deal.number, (int)deal.value);
    return refuse(deal.number);
  }
  VareffectBases window;
  uint64_t refusal = vareffect_read_window(file, file_len, &window);
  if (refusal != 0)
    return printf("window refused, number %d\n", (int)refusal), refuse(refusal);
  for (uint64_t i = 0; i < deal.value; i++) {
    VareffectCallAnswer answer;
    vareffect_read_transcript(deck, deck_len, i, &held);
    VareffectTranscript t = vareffect_lend(&held);
    printf("%u %s: ", t.model.id, vareffect_ask_admit(&t) == 0 ? "admitted" : "refused");
    if ((refusal = vareffect_ask_call(&t, &window, call, &answer)) != 0) {
      printf("number %d, %s\n", (int)refusal, vareffect_refusal_cause(refusal));
      continue;
    }
    printf("%s", vareffect_place_name((uint64_t)answer.place.kind));
    for (uint64_t rank = 1; rank <= 28; rank++)
      if (answer.terms >> (rank - 1) & 1)
        printf(" %s", vareffect_term_name(rank));
    putchar('\n');
  }
  return 0;
}
