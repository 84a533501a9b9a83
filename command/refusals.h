/* What each refusal says, in a sentence. */
#ifndef REFUSALS_H
#define REFUSALS_H

#include <stdint.h>

/* The sentence of a refusal, NULL where no refusal has the number. */
const char *sentence_of(uint64_t number);

#endif
