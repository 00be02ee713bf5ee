/* Speaks a call sheet with a voice file: see print_usage in options.c. */
#include "files.h"
#include "gain.h"
#include "notes.h"
#include "options.h"
#include "refusal.h"
#include "report.h"
#include "speech.h"
#include "writer.h"

#include <errno.h>
#include <stdio.h>
#include <string.h>

static int fail(const char *what, const char *name)
{
    fprintf(stderr, "player: cannot %s %s: %s\n", what, name, strerror(errno));
    return 1;
}

/* A call on its way: what was asked for, what was read, what is spoken. */
struct call {
    const struct options *options;
    struct input voice, sheet;
    struct speech speech;
};

/* Says why there is no call. Answers the exit status. */
static int refuse(uint32_t number, const struct call *call)
{
    if (number == NO_MEMORY)
        fprintf(stderr, "player: not enough memory for this call\n");
    else
        print_refusal(number, &call->voice, &call->sheet, call->options);
    return 1;
}

/* Pulls period by period until the engine says done. Answers 0 or a refusal's number. */
static uint32_t pull_all(struct call *call, FILE *stream, double factor)
{
    struct speech *speech = &call->speech;
    enum output output = call->options->output;
    uint64_t number = 1;
    int64_t size;

    write_start(stream, output, speech);
    for (size = pull_period(speech); size >= 0; size = pull_period(speech)) {
        if (factor != 1)
            amplify(speech->samples.at, (size_t)size, factor);
        write_period(stream, output, number, speech->samples.at, (size_t)size);
        number += 1;
    }
    return size == DIPHONE_DONE ? 0 : (uint32_t)-size;
}

/* Closes the file. Answers whether all that was written arrived. */
static int close_output(FILE *stream)
{
    int failed = ferror(stream);

    return fclose(stream) == 0 && !failed;
}

/* Says what a WAV file has. */
static void tell(const struct speech *speech, const char *name)
{
    fprintf(stderr, "%s: %.3f seconds, %llu samples at %llu a second, %llu periods\n", name,
            (double)speech->length / (double)speech->rate, (unsigned long long)speech->length,
            (unsigned long long)speech->rate, (unsigned long long)speech->periods);
}

/* The file that is written, or NULL for standard output. */
static const char *file_of(const struct options *options)
{
    if (options->output != OUTPUT_WAV || strcmp(options->wav, "-") == 0)
        return NULL;
    return options->wav;
}

static int write_speech(struct call *call)
{
    const char *file = file_of(call->options);
    const char *name = file == NULL ? "standard output" : file;
    double factor;
    uint32_t refusal = find_factor(&factor, &call->speech, call->options->gain);
    FILE *stream;

    if (refusal != 0)
        return refuse(refusal, call);
    stream = file == NULL ? stdout : fopen(file, "wb");
    if (stream == NULL)
        return fail("write", name);
    refusal = pull_all(call, stream, factor);
    if (!close_output(stream)) {
        int status = fail("write", name);
        if (file != NULL)
            remove_unfinished(file);
        return status;
    }
    if (refusal != 0 && file != NULL)
        remove_unfinished(file);
    if (refusal != 0)
        return refuse(refusal, call);
    if (call->options->output == OUTPUT_WAV)
        tell(&call->speech, name);
    return 0;
}

/* Prints the report or the ends on standard output. */
static int write_table(const struct call *call)
{
    struct phones phones;
    struct flaw flaw;

    if (read_phones(&phones, &call->sheet.bytes, &flaw) != 0)
        return refuse(NO_MEMORY, call);
    if (call->options->report)
        print_report(stdout, &call->speech, &phones);
    else
        print_ends(stdout, &call->speech, &phones);
    release_phones(&phones);
    return close_output(stdout) ? 0 : fail("write", "standard output");
}

/* The engine's part: the plan, and the report where it is asked for. Answers 0, a refusal's number or
   NO_MEMORY. */
static uint32_t plan(struct call *call, int has_table)
{
    const struct bytes *voice = &call->voice.bytes, *sheet = &call->sheet.bytes;
    uint32_t refusal = plan_speech(&call->speech, voice, sheet, call->options);

    if (refusal == 0 && has_table)
        refusal = report_speech(&call->speech, voice, sheet, call->options);
    return refusal;
}

static int speak(struct call *call)
{
    int has_table = call->options->report || call->options->ends;
    uint32_t refusal = plan(call, has_table);
    int status = 0;

    if (refusal != 0) {
        status = refuse(refusal, call);
    } else {
        note_empty(&call->speech, &call->sheet, call->options);
        note_pairs(&call->speech, &call->voice, &call->sheet, call->options);
        note_texts(&call->sheet);
        if (call->options->output != OUTPUT_NONE)
            status = write_speech(call);
        if (status == 0 && has_table)
            status = write_table(call);
    }
    release_speech(&call->speech);
    return status;
}

static int speak_files(const struct options *options)
{
    struct call call = {.options = options};
    const char *file = file_of(options);
    int status;

    if (file != NULL && (is_same_file(file, options->voice) || is_same_file(file, options->sheet))) {
        fprintf(stderr, "player: cannot write %s: it is read too\n", file);
        return 1;
    }
    if (read_input(&call.voice, options->voice) != 0)
        return fail("read", call.voice.name);
    if (read_input(&call.sheet, options->sheet) != 0)
        status = fail("read", call.sheet.name);
    else
        status = speak(&call);
    release(&call.sheet.bytes);
    release(&call.voice.bytes);
    return status;
}

int main(int count, char **words)
{
    struct options options;

    if (read_options(&options, count, words) != 0) {
        print_usage(stderr);
        return 2;
    }
    if (options.task == TASK_SPEAK)
        return speak_files(&options);
    if (options.task == TASK_HELP)
        print_usage(stdout);
    else
        printf("player %s\n", DIPHONE_VERSION);
    return close_output(stdout) ? 0 : fail("write", "standard output");
}
