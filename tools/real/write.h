/* Flite's voices as voice files, its utterances as call sheets. Numbers are written as this machine
   has them, which must be little-endian. */
#ifndef REAL_WRITE_H
#define REAL_WRITE_H

#include "../../player/bytes.h"
#include "source.h"

/* The header keeps what the voice registers itself with. */
void write_voice(FILE *out, const struct source *source, const cst_voice *voice);

/* Segments and targets are flite's, as its voice timed and intoned them. */
void write_sheet(FILE *out, cst_utterance *utterance);

/* The same as bytes in memory. */
struct bytes voice_bytes(const struct source *source, const cst_voice *voice);
struct bytes sheet_bytes(cst_utterance *utterance);

#endif
