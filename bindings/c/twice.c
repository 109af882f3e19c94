/* The headers twice in each of two files of one program: this one, compiled with and without MAIN. */
#include "vareffect.h"
#include "vareffect_ask.h"
#include "vareffect_words.h"
#include "vareffect.h"
#include "vareffect_ask.h"
#include "vareffect_words.h"

#include <string.h>

uint64_t other_file(const char *term);

#ifdef MAIN
int main(void) { return other_file(vareffect_term_name(1)) != VAREFFECT_ABI; }
#else
uint64_t other_file(const char *term) { return strcmp(term, vareffect_term_name(1)) == 0 ? vareffect_abi() : 0; }
#endif
