/* Flite's two diphone voices, and its way from a text to an utterance that is ready to be spoken. */
#ifndef REAL_SOURCE_H
#define REAL_SOURCE_H

#include <flite/flite.h>
#include <flite/cst_diphone.h>
#include <stdint.h>
#include <stdio.h>

struct source {
    const char *name;
    cst_voice *(*open)(const char *folder);
    const cst_diphone_db *base;
    uint32_t fold; /* whether the voice's own rules speak ah as aa */
};

/* The voice kal or kal16, or NULL. */
const struct source *source_named(const char *name);

/* Opens a voice whose utterances are left without a wave. */
cst_voice *open_source(const struct source *source);

struct sentence {
    const char *text;
    cst_voice *voice;
};

/* A fresh utterance of a sentence, with segments and targets. */
cst_utterance *analyse(const void *sentence);

/* Takes the next line of a file as the text, which stays until the next is taken. Answers 0 where there
   is none. */
int next_sentence(struct sentence *sentence, FILE *file);

/* Says what is wrong and ends the program. */
_Noreturn void stop(const char *problem);

#endif
