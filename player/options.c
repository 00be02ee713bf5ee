#include "options.h"

#include "diphone.h"

#include <stdlib.h>
#include <string.h>

#define MOST_GAIN 60

/* A setting's name, and its flag in diphone.h. */
struct flag {
    const char *name;
    uint32_t flag;
};

static const struct flag JOINS[] = {{"none", DIPHONE_JOIN_NONE},
                                    {"simple", DIPHONE_JOIN_SIMPLE},
                                    {"modified", DIPHONE_JOIN_MODIFIED},
                                    {NULL, 0}};
static const struct flag FILTERS[] = {{"fixed", DIPHONE_FILTER_FIXED},
                                      {"float", DIPHONE_FILTER_FLOAT},
                                      {NULL, 0}};

void print_usage(FILE *stream)
{
    fputs("usage: player VOICE SHEET [--join none|simple|modified] [--filter fixed|float] [--fold]\n"
          "              [--strict] [--gain DB] [--raw | [--report | --ends] [--wav FILE]]\n"
          "\n"
          "Speaks the call sheet SHEET with the voice file VOICE. A file named - is standard input;\n"
          "after -- every word is a file.\n"
          "  --join    how units are joined (modified)\n"
          "  --filter  the arithmetic of the filter; if none is named, one hears float\n"
          "  --fold    speak ah as aa\n"
          "  --strict  refuse a call with a pair of phones that is not in the voice; without it such a\n"
          "            pair is spoken by the voice's first entry, and a note tells which\n"
          "  --gain    louder by DB decibels, or softer below 0; less where samples would clip (0)\n"
          "  --wav     write a WAV file; with - on standard output\n"
          "  --raw     write 16-bit little-endian samples on standard output,\n"
          "            for: aplay -f S16_LE -r RATE\n"
          "  --report  print a line for each period: its number, the number of its pair of phones (from\n"
          "            1), which half of the pair's diphone (1 or 2), its first sample (from 0), its\n"
          "            size, and the names of the two phones as the sheet has them\n"
          "  --ends    print a line for each phone: its number, its name, the sample where the sheet\n"
          "            ends it (time by rate, to the nearest, a half going up, 0 below zero), and the\n"
          "            sample where it really ends. That is the end of the last period of half 1 of the\n"
          "            pair that begins with this phone; if that half took none, the end of the last\n"
          "            period before it, or 0. The last phone begins no pair: it ends with the call\n"
          "  --help, --version\n"
          "Without --wav, --raw, --report and --ends the call is printed as text: a line with rate,\n"
          "periods and samples, then for each period its number, its size and its samples. With --report\n"
          "or --ends sound is written only to a file that --wav names. In their lines a backslash in a\n"
          "name is doubled, and \\0 is the empty name. Notes, and what a WAV file has, go to standard\n"
          "error.\n"
          "\n"
          "Exit status: 0; 1 if the call is refused or a file cannot be read or written; 2 if the\n"
          "command line is wrong.\n",
          stream);
}

static int complain(const char *problem, const char *word)
{
    fprintf(stderr, "player: %s: %s\n", problem, word);
    return -1;
}

/* The place of a word in a list, or -1. */
static int place_in(const char *const *list, const char *word)
{
    int place;

    for (place = 0; list[place] != NULL; place += 1)
        if (strcmp(list[place], word) == 0)
            return place;
    return -1;
}

/* A setting by its name. */
static int read_setting(uint32_t *setting, const struct flag *flags, const char *name)
{
    for (; flags->name != NULL; flags += 1)
        if (strcmp(flags->name, name) == 0) {
            *setting = flags->flag;
            return 0;
        }
    return complain("no such setting", name);
}

static int read_gain(double *gain, const char *word)
{
    char *end;

    *gain = strtod(word, &end);
    if (end == word || *end != '\0' || !(*gain >= -MOST_GAIN && *gain <= MOST_GAIN))
        return complain("no gain from -60 to 60 decibels", word);
    return 0;
}

/* ---- options that take a word */

enum { JOIN, FILTER, GAIN, WAV };
static const char *const OPTIONS[] = {"--join", "--filter", "--gain", "--wav", NULL};

static int read_pair(struct options *options, int option, const char *word)
{
    if (word == NULL || *word == '\0')
        return complain("a word is missing after", OPTIONS[option]);
    switch (option) {
    case JOIN:
        return read_setting(&options->join, JOINS, word);
    case FILTER:
        return read_setting(&options->filter, FILTERS, word);
    case GAIN:
        return read_gain(&options->gain, word);
    default:
        options->wav = word;
        return 0;
    }
}

/* An option as in --join=simple: its number and its word, or -1. */
static int joined_option(const char *word, const char **value)
{
    int option;

    for (option = 0; OPTIONS[option] != NULL; option += 1) {
        size_t length = strlen(OPTIONS[option]);
        if (strncmp(word, OPTIONS[option], length) == 0 && word[length] == '=') {
            *value = word + length + 1;
            return option;
        }
    }
    return -1;
}

/* ---- options that stand alone, and files */

static int read_flag(struct options *options, const char *option)
{
    if (strcmp(option, "--fold") == 0)
        options->fold = DIPHONE_FOLD;
    else if (strcmp(option, "--strict") == 0)
        options->strict = DIPHONE_STRICT;
    else if (strcmp(option, "--raw") == 0)
        options->output = OUTPUT_RAW;
    else if (strcmp(option, "--report") == 0)
        options->report = 1;
    else if (strcmp(option, "--ends") == 0)
        options->ends = 1;
    else if (strcmp(option, "--help") == 0 || strcmp(option, "-h") == 0)
        options->task = TASK_HELP;
    else if (strcmp(option, "--version") == 0)
        options->task = TASK_VERSION;
    else
        return complain("no such option", option);
    return 0;
}

static int read_file_name(struct options *options, const char *word)
{
    if (options->voice == NULL)
        options->voice = word;
    else if (options->sheet == NULL)
        options->sheet = word;
    else
        return complain("one word too many", word);
    return 0;
}

/* Reads the word at a place; `words` ends with a null pointer. */
static int read_word(struct options *options, char **words, int *place)
{
    const char *word = words[*place];
    const char *value;
    int option = place_in(OPTIONS, word);

    *place += 1;
    if (option >= 0) {
        value = words[*place];
        *place += value != NULL;
        return read_pair(options, option, value);
    }
    option = joined_option(word, &value);
    if (option >= 0)
        return read_pair(options, option, value);
    if (word[0] == '-' && word[1] != '\0')
        return read_flag(options, word);
    return read_file_name(options, word);
}

/* Whether the outputs make sense together; chooses what is written of the sound. */
static int check_output(struct options *options)
{
    int table = options->report || options->ends;

    if (options->wav != NULL && options->output == OUTPUT_RAW)
        return complain("one of these only", "--raw, --wav");
    if ((options->output == OUTPUT_RAW) + options->report + options->ends > 1)
        return complain("one of these only", "--raw, --report, --ends");
    if (table && options->wav != NULL && strcmp(options->wav, "-") == 0)
        return complain("beside --report and --ends only a file can be written", "--wav -");
    if (options->wav != NULL)
        options->output = OUTPUT_WAV;
    else if (table)
        options->output = OUTPUT_NONE;
    return 0;
}

/* Whether the words make sense together. */
static int check_options(struct options *options)
{
    if (options->task != TASK_SPEAK)
        return 0;
    if (options->sheet == NULL)
        return complain("missing", options->voice == NULL ? "VOICE and SHEET" : "SHEET");
    if (strcmp(options->voice, "-") == 0 && strcmp(options->sheet, "-") == 0)
        return complain("one file only can be standard input", "-");
    return check_output(options);
}

int read_options(struct options *options, int count, char **words)
{
    static const struct options DEFAULTS = {.join = DIPHONE_JOIN_MODIFIED,
                                            .filter = DIPHONE_FILTER_UNNAMED,
                                            .output = OUTPUT_LIST,
                                            .task = TASK_SPEAK};
    int place = 1;
    int files = 0; /* whether all words from here on are files */

    *options = DEFAULTS;
    while (place < count) {
        int status;
        if (!files && strcmp(words[place], "--") == 0) {
            files = 1;
            place += 1;
            continue;
        }
        status = files ? read_file_name(options, words[place++]) : read_word(options, words, &place);
        if (status != 0)
            return -1;
    }
    return check_options(options);
}
