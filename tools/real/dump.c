/* Writes flite's diphone voices as voice files, and a text as call sheets through flite's own text
   analysis. Debian's flite1-dev has the library and the voices.

       dump voice kal|kal16 > VOICE
       dump sheet kal|kal16 TEXT > SHEET
       dump sheets kal|kal16 FOLDER STRETCH PITCH < TEXT

   The last writes a sheet for each sentence that has a sound, FOLDER/0001.sht and so on, and prints how
   many. STRETCH and PITCH are flite's duration_stretch and int_f0_target_mean; a hyphen leaves the voice's
   own. */
#include "split.h"
#include "write.h"

#include <stdlib.h>
#include <string.h>

/* Standard input as text. */
static char *read_text(void) {
    struct input input;
    char *text;
    if (read_input(&input, "-") != 0)
        stop("cannot read standard input");
    text = malloc(input.bytes.length + 1);
    if (text == NULL)
        stop("no memory");
    memcpy(text, input.bytes.at, input.bytes.length);
    text[input.bytes.length] = 0;
    release(&input.bytes);
    return text;
}

static void set_feature(cst_voice *voice, const char *name, const char *word) {
    char *end;
    float number = strtof(word, &end);
    if (strcmp(word, "-") == 0)
        return;
    if (end == word || *end != 0 || !(number > 0))
        stop("STRETCH and PITCH are numbers above 0");
    feat_set_float(voice->features, name, number);
}

static void write_file(const char *folder, int number, cst_utterance *utterance) {
    char name[4096];
    FILE *out;
    if (snprintf(name, sizeof name, "%s/%04d.sht", folder, number) >= (int)sizeof name)
        stop("a name is too long");
    out = fopen(name, "wb");
    if (out == NULL)
        stop("cannot write a sheet");
    write_sheet(out, utterance);
    if (fclose(out) != 0)
        stop("cannot write a sheet");
}

static void write_sheets(const char *folder, cst_voice *voice) {
    char *words = read_text();
    struct text text = open_text(words);
    cst_utterance *utterance;
    int number = 0;
    while ((utterance = next_utterance(&text, voice)) != NULL) {
        if (is_spoken(utterance))
            write_file(folder, ++number, utterance);
        delete_utterance(utterance);
    }
    printf("%d\n", number);
    free(words);
}

int main(int count, char **words) {
    const struct source *source = count >= 3 ? source_named(words[2]) : NULL;
    int voice = count == 3 && strcmp(words[1], "voice") == 0;
    int sheet = count == 4 && strcmp(words[1], "sheet") == 0;
    int sheets = count == 6 && strcmp(words[1], "sheets") == 0;
    if (source == NULL || !(voice || sheet || sheets)) {
        fputs("usage: dump voice kal|kal16\n       dump sheet kal|kal16 TEXT\n"
              "       dump sheets kal|kal16 FOLDER STRETCH PITCH\n",
              stderr);
        return 2;
    }
    struct sentence sentence = {words[3], open_source(source)};
    if (voice) {
        write_voice(stdout, source, sentence.voice);
    } else if (sheet) {
        write_sheet(stdout, analyse(&sentence));
    } else {
        set_feature(sentence.voice, "duration_stretch", words[4]);
        set_feature(sentence.voice, "int_f0_target_mean", words[5]);
        write_sheets(words[3], sentence.voice);
    }
    if (fflush(stdout) != 0)
        stop("cannot write");
    return 0;
}
