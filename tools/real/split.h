/* A text sentence by sentence, by flite's own rule. */
#ifndef REAL_SPLIT_H
#define REAL_SPLIT_H

#include "source.h"

struct text {
    cst_tokenstream *stream;
    int pending; /* whether the stream's token was not used yet */
};

struct text open_text(const char *text);

/* An utterance of the next sentence, or of its next 100 words where it has more, with segments and
   targets. Answers NULL where there is none. */
cst_utterance *next_utterance(struct text *text, cst_voice *voice);

/* Whether an utterance has a phone that is no pause. */
int is_spoken(cst_utterance *utterance);

#endif
