#include "refusal.h"

#include "diphone.h"
#include "pairs.h"

#include <stdio.h>

/* What each number says: of the voice up to 7, of the sheet up to 12, with 16 and 17, else of the player. */
static const char *const SENTENCES[] = {
    "no refusal",
    "is no voice file: its first 8 bytes are not FLRSDAT and 1",
    "is cut short within a section, or a section's name is not UTF-8",
    "is not a diphone voice: it names another back end",
    "lacks a section that a diphone voice needs",
    "has a header that is cut short or outside its limits",
    "has tables that do not fit each other",
    "has an unfit index: cut short, empty, an odd name, a name twice, or an entry past the frames",
    "is malformed",
    "has a time or pitch that is not a finite number",
    "has a pitch that changes too fast: a slope is not finite",
    "is too long: a phone or a period ends past sample 16,777,215",
    "asks for more than 65,536 periods",
    "a buffer is too short",
    "a sample slice is shorter than the next period",
    "the filter state is impossible, or the coefficients are cut short",
    "has pairs of phones that the voice lacks, and the call is strict",
    "has a time or pitch whose text is too long",
};

_Static_assert(sizeof SENTENCES / sizeof *SENTENCES == DIPHONE_LAST_REFUSAL + 1,
               "a sentence for each refusal");

#define LAST_OF_VOICE DIPHONE_BAD_INDEX
#define LAST_OF_SHEET DIPHONE_TOO_MANY_MARKS

/* Where and why a sheet cannot be read, behind the sentence. */
static void print_flaw(const struct bytes *sheet)
{
    struct phones phones;
    struct flaw flaw;

    if (read_phones(&phones, sheet, &flaw) == 0)
        release_phones(&phones);
    else if (flaw.number != 0)
        fprintf(stderr, ", at byte %llu: %s", (unsigned long long)flaw.place, flaw.reason);
    if (sheet->length == 0)
        fputs("; it is empty", stderr);
    else if (looks_like_text(sheet))
        fputs("; it looks like a text, of which `tools/sheet encode TEXT SHEET` makes a call sheet",
              stderr);
}

/* How many pairs the voice lacks and which, behind the sentence; a refused call has filled no index. */
static void print_lacking(const struct input *voice, const struct input *sheet, int fold)
{
    struct bytes index;
    struct pairs pairs = {.voice = &voice->bytes, .index = &index, .fold = fold};
    struct flaw flaw;

    if (open_index(&index, &voice->bytes) != 0)
        return;
    if (read_phones(&pairs.phones, &sheet->bytes, &flaw) == 0) {
        fputs(": ", stderr);
        print_missing(&pairs, voice->name, "");
        release_phones(&pairs.phones);
    }
    release(&index);
}

void print_refusal(uint32_t number, const struct input *voice, const struct input *sheet,
                   const struct options *options)
{
    const char *what = "the player is at fault:";

    if (number <= LAST_OF_VOICE)
        what = voice->name;
    else if (number <= LAST_OF_SHEET || number == DIPHONE_MISSING_PAIR || number == DIPHONE_LONG_TEXT)
        what = sheet->name;
    fprintf(stderr, "player: refused %lu: %s %s", (unsigned long)number, what,
            number <= DIPHONE_LAST_REFUSAL ? SENTENCES[number] : "an unknown number");
    if (number == DIPHONE_BAD_SHEET || number == DIPHONE_NOT_FINITE || number == DIPHONE_LONG_TEXT)
        print_flaw(&sheet->bytes);
    else if (number == DIPHONE_MISSING_PAIR)
        print_lacking(voice, sheet, options->fold != 0);
    putc('\n', stderr);
}
