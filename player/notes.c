#include "notes.h"

#include "pairs.h"

#include <stdio.h>

#define ENTRY_NAME 68 /* bytes shown of an entry's name, with its end */

void note_pairs(const struct speech *speech, const struct input *voice, const struct input *sheet,
                const struct options *options)
{
    struct pairs pairs = {.voice = &voice->bytes, .index = &speech->index, .fold = options->fold != 0};
    char first[ENTRY_NAME], becomes[ENTRY_NAME + 32] = "";
    struct flaw flaw;

    if (read_phones(&pairs.phones, &sheet->bytes, &flaw) != 0)
        return;
    if (speech->periods > 0) {
        name_first(first, sizeof first, &pairs);
        snprintf(becomes, sizeof becomes, ", spoken by its first entry %s", first);
    }
    if (count_missing(&pairs) > 0) {
        fputs("player: note: ", stderr);
        print_missing(&pairs, voice->name, becomes);
        fputs(" (--strict refuses such a call)\n", stderr);
    }
    release_phones(&pairs.phones);
}

/* A text in quotes, as tools/sheet writes it: what is not printing ASCII stands as \xNN. */
static void print_text(const struct text *text)
{
    size_t i;

    putc('"', stderr);
    for (i = 0; i < text->length; i += 1) {
        uint8_t byte = text->at[i];
        if (byte < 32 || byte > 126)
            fprintf(stderr, "\\x%02x", byte);
        else
            fprintf(stderr, byte == '"' || byte == '\\' ? "\\%c" : "%c", byte);
    }
    putc('"', stderr);
}

void note_texts(const struct input *sheet)
{
    struct phones phones;
    const struct texts *texts = &phones.texts;
    struct flaw flaw;

    if (read_phones(&phones, &sheet->bytes, &flaw) != 0)
        return;
    if (texts->odd > 0) {
        fprintf(stderr, "player: note: %llu of %llu texts in %s not read to the end or without a digit: ",
                (unsigned long long)texts->odd, (unsigned long long)texts->count, sheet->name);
        print_text(&texts->first);
        fprintf(stderr, ", the %s, counts as ", texts->what);
        if (texts->first.counted > 0)
            fwrite(texts->first.at, 1, texts->first.counted, stderr);
        else
            putc('0', stderr);
        fputs(texts->odd > 1 ? ", ..\n" : "\n", stderr);
    }
    release_phones(&phones);
}

void note_empty(const struct speech *speech, const struct input *sheet, const struct options *options)
{
    struct phones phones;
    struct flaw flaw;
    const char *why = "its periods have no sample";

    if (speech->length > 0 || read_phones(&phones, &sheet->bytes, &flaw) != 0)
        return;
    if (options->join == DIPHONE_JOIN_NONE)
        why = "join none speaks no period";
    else if (phones.count < 2)
        why = "the sheet has fewer than two segments";
    else if (speech->periods == 0 && options->join == DIPHONE_JOIN_SIMPLE)
        why = "the units have fewer than two periods";
    else if (speech->periods == 0)
        why = "the sheet's targets and ends give no period (--join simple needs neither)";
    fprintf(stderr, "player: note: the call is empty: %s\n", why);
    release_phones(&phones);
}
