#include "source.h"

#include <flite/cst_synth.h>
#include <stdlib.h>
#include <string.h>

cst_voice *register_cmu_us_kal(const char *folder);
cst_voice *register_cmu_us_kal16(const char *folder);
extern cst_diphone_db cmu_us_kal_db, cmu_us_kal16_db;

static const struct source SOURCES[] = {
    {"kal", register_cmu_us_kal, &cmu_us_kal_db, 1},
    {"kal16", register_cmu_us_kal16, &cmu_us_kal16_db, 0},
};

void stop(const char *problem) {
    fprintf(stderr, "tools/real: %s\n", problem);
    exit(1);
}

const struct source *source_named(const char *name) {
    for (size_t i = 0; i < sizeof SOURCES / sizeof *SOURCES; i++)
        if (strcmp(SOURCES[i].name, name) == 0)
            return &SOURCES[i];
    return NULL;
}

static cst_utterance *no_wave(cst_utterance *utterance) { return utterance; }

cst_voice *open_source(const struct source *source) {
    flite_init();
    cst_voice *voice = source->open(NULL);
    feat_set(voice->features, "wave_synth_func", uttfunc_val(&no_wave));
    return voice;
}

cst_utterance *analyse(const void *sentence) {
    const struct sentence *s = sentence;
    cst_utterance *utterance = flite_synth_text(s->text, s->voice);
    if (utterance == NULL)
        stop("flite cannot speak this");
    return utterance;
}

int next_sentence(struct sentence *sentence, FILE *file) {
    static char *line;
    static size_t room;
    if (getline(&line, &room, file) < 0)
        return 0;
    line[strcspn(line, "\n")] = 0;
    sentence->text = line;
    return 1;
}
