/* Compares the engine with flite itself, in every setting, on each sentence of a file.

       compare kal|kal16 FILE

   Prints for each setting and cause the first sentence that has it, then how many sentences have each cause.
   Exit status 1 if a difference has no known cause. */
#include "judge.h"
#include "write.h"

/* A sentence in every setting. */
static void take(struct tally tally[SETTINGS], const struct call *call, size_t number) {
    for (int i = 0; i < SETTINGS; i++) {
        struct verdict verdict = judge(call, &SETTING[i]);
        if (verdict.refusal != 0)
            stop("the engine refused a sentence");
        take_verdict(&tally[i], &verdict, "sentence", number, &SETTING[i]);
    }
}

int main(int count, char **words) {
    const struct source *source = count == 3 ? source_named(words[1]) : NULL;
    FILE *file = source == NULL ? NULL : fopen(words[2], "r");
    if (file == NULL) {
        fputs("usage: compare kal|kal16 FILE\n", stderr);
        return 2;
    }
    struct tally tally[SETTINGS] = {0};
    struct sentence sentence = {.voice = open_source(source)};
    struct bytes voice = voice_bytes(source, sentence.voice);
    struct call call = {analyse, &sentence, &voice};
    for (size_t number = 1; next_sentence(&sentence, file); number++)
        take(tally, &call, number);
    return print_tallies(source->name, tally) > 0;
}
