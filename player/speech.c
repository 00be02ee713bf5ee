#include "speech.h"

#include <string.h>

static uint32_t settings_word(const struct options *options)
{
    return options->join | options->filter | options->fold | options->strict;
}

/* Allocates what diphone_need asks for. */
static int allocate_buffers(struct speech *speech, const uint8_t *need)
{
    return allocate(&speech->index, u64_at(need, 0), DIPHONE_INDEX_ENTRY_BYTES) != 0 ||
           allocate(&speech->marks, u64_at(need, 1), 4) != 0 ||
           allocate(&speech->sizes, u64_at(need, 2), 4) != 0 ||
           allocate(&speech->rows, u64_at(need, 3), 2) != 0 ||
           allocate(&speech->excitation, u64_at(need, 4), 1) != 0 ||
           allocate(&speech->decoded, u64_at(need, 5), 1) != 0;
}

static uint32_t make_plan(struct speech *speech, const struct bytes *voice,
                          const struct bytes *sheet, const struct options *options,
                          uint8_t *summary)
{
    return diphone_plan(voice->at, voice->length, sheet->at, sheet->length,
                        settings_word(options), speech->index.at, speech->index.length,
                        speech->marks.at, speech->marks.length, speech->sizes.at,
                        speech->sizes.length, speech->rows.at, speech->rows.length,
                        speech->excitation.at, speech->excitation.length, speech->decoded.at,
                        speech->decoded.length, speech->state, sizeof speech->state, summary,
                        DIPHONE_SUMMARY_BYTES);
}

static void keep_summary(struct speech *speech, const uint8_t *summary)
{
    speech->rate = u64_at(summary, 0);
    speech->periods = u64_at(summary, 1);
    speech->length = u64_at(summary, 2);
    speech->row_values = speech->periods * u64_at(summary, 4);
}

static uint32_t greatest_size(const struct speech *speech)
{
    uint32_t greatest = 0;
    uint64_t period;

    for (period = 0; period < speech->periods; period += 1) {
        uint32_t size = u32_at(speech->sizes.at, period);
        greatest = size > greatest ? size : greatest;
    }
    return greatest;
}

uint32_t plan_speech(struct speech *speech, const struct bytes *voice, const struct bytes *sheet,
                     const struct options *options)
{
    uint8_t need[DIPHONE_NEED_BYTES];
    uint8_t summary[DIPHONE_SUMMARY_BYTES];
    uint32_t refusal;

    memset(speech, 0, sizeof *speech);
    refusal = diphone_need(voice->at, voice->length, sheet->at, sheet->length,
                           settings_word(options), need, sizeof need);
    if (refusal != 0)
        return refusal;
    if (allocate_buffers(speech, need))
        return NO_MEMORY;
    refusal = make_plan(speech, voice, sheet, options, summary);
    if (refusal != 0)
        return refusal;
    keep_summary(speech, summary);
    return allocate(&speech->samples, greatest_size(speech), 2) == 0 ? 0 : NO_MEMORY;
}

int64_t pull_period(struct speech *speech)
{
    return diphone_pull(speech->state, sizeof speech->state, speech->sizes.at, speech->periods * 4,
                        speech->rows.at, speech->row_values * 2, speech->excitation.at,
                        speech->length, speech->samples.at, speech->samples.length);
}

uint32_t report_speech(struct speech *speech, const struct bytes *voice, const struct bytes *sheet,
                       const struct options *options)
{
    if (allocate(&speech->lines, speech->periods, DIPHONE_REPORT_LINE_BYTES) != 0)
        return NO_MEMORY;
    return diphone_report(voice->at, voice->length, sheet->at, sheet->length,
                          settings_word(options), speech->lines.at, speech->lines.length);
}

void release_speech(struct speech *speech)
{
    release(&speech->index);
    release(&speech->marks);
    release(&speech->sizes);
    release(&speech->rows);
    release(&speech->excitation);
    release(&speech->decoded);
    release(&speech->samples);
    release(&speech->lines);
}
