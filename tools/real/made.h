/* Made-up voices and calls, for flite and the engine alike. */
#ifndef REAL_MADE_H
#define REAL_MADE_H

#include "source.h"

/* A voice of 64 periods with random rows and residual: mu-law of order 4, loud enough for outputs past
   16 bits; or G.721 of order 2 with codes that drive the decoder to its limits. It lives as long as the
   program, and only the last one made is whole. */
struct source made_voice(const char *name, int g721, uint64_t seed);

/* A made-up call on a voice. With many of its ends the middle between two in f32 is another sample than in f64,
   truncated or to the nearest; some ends stand on a sample, some half a sample after one. In half of the calls some
   targets have no pitch. */
struct made_call {
    const struct source *source;
    cst_voice *voice; /* for the phone set */
    uint64_t seed;
};

cst_utterance *make_call(const void *call);

/* A call of two segments and one target, which has a single pitch mark. */
cst_utterance *make_single_mark(const struct made_call *call);

#endif
