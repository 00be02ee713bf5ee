#include "write.h"

#include <stdlib.h>
#include <string.h>

/* Codes before a G.721 period's own, for the decoder to settle. */
#define LEAD_IN 8

enum { WHOLE = 0, FLOAT = 1, ABSENT = 2 };

static void put(FILE *out, const void *bytes, size_t count) {
    if (fwrite(bytes, 1, count, out) != count)
        stop("cannot write");
}

static void put_byte(FILE *out, unsigned byte) {
    uint8_t b = (uint8_t)byte;
    put(out, &b, 1);
}

static void put_u32(FILE *out, uint32_t number) { put(out, &number, 4); }

static void put_f32(FILE *out, float number) { put(out, &number, 4); }

static void put_name(FILE *out, const char *name) {
    size_t length = strlen(name);
    if (length > 255)
        stop("a name is too long");
    put_byte(out, (unsigned)length);
    put(out, name, length);
}

/* ---- a voice */

static void put_section(FILE *out, const char *name, const void *data, size_t count) {
    put_name(out, name);
    put_u32(out, (uint32_t)count);
    put(out, data, count);
}

static uint32_t is_g721(const cst_sts_list *sts) { return sts->codec != NULL && strcmp(sts->codec, "g721") == 0; }

static void put_header(FILE *out, const struct source *source, const cst_voice *voice) {
    const cst_sts_list *sts = source->base->sts;
    put_name(out, "sts.header");
    put_u32(out, 40);
    put_u32(out, (uint32_t)sts->num_sts);
    put_u32(out, (uint32_t)sts->num_channels);
    put_u32(out, (uint32_t)sts->sample_rate);
    put_f32(out, sts->coeff_min);
    put_f32(out, sts->coeff_range);
    put_u32(out, is_g721(sts));
    put_f32(out, get_param_float(voice->features, "duration_stretch", 1));
    put_f32(out, get_param_float(voice->features, "int_f0_target_mean", 100));
    put_f32(out, get_param_float(voice->features, "int_f0_target_stddev", 12));
    put_u32(out, source->fold);
}

/* Where each period begins, and where the last one ends. */
static uint32_t *offsets(const cst_sts_list *sts) {
    int frames = sts->num_sts;
    uint32_t *places = malloc(((size_t)frames + 1) * sizeof *places);
    if (places == NULL)
        stop("no memory");
    for (int i = 0; i < frames; i++)
        places[i] = sts->resoffs[i];
    places[frames] = is_g721(sts) ? places[frames - 1] + (sts->ressizes[frames - 1] + LEAD_IN + 1u) / 2
                                  : sts->resoffs[frames];
    for (int i = 0; i < frames; i++)
        if (is_g721(sts) && places[i + 1] - places[i] != (sts->ressizes[i] + LEAD_IN + 1u) / 2)
            stop("a period's codes are not as many as its samples ask for");
    return places;
}

static void put_index(FILE *out, const cst_diphone_db *base) {
    uint32_t length = 4;
    for (int i = 0; i < base->num_entries; i++)
        length += 5 + (uint32_t)strlen(base->diphones[i].name);
    put_name(out, "dip.index");
    put_u32(out, length);
    put_u32(out, (uint32_t)base->num_entries);
    for (int i = 0; i < base->num_entries; i++) {
        const cst_diphone_entry *entry = &base->diphones[i];
        put_name(out, entry->name);
        put_byte(out, entry->start_pm % 256u);
        put_byte(out, entry->start_pm / 256u);
        put_byte(out, entry->pb_pm);
        put_byte(out, entry->end_pm);
    }
}

void write_voice(FILE *out, const struct source *source, const cst_voice *voice) {
    const cst_sts_list *sts = source->base->sts;
    size_t frames = (size_t)sts->num_sts;
    if (sts->frames == NULL || sts->residuals == NULL || sts->resoffs == NULL)
        stop("the voice keeps its periods in another form");
    uint32_t *places = offsets(sts);
    put(out, "FLRSDAT\x01", 8);
    put_section(out, "voice.backend", "diphone", 7);
    put_header(out, source, voice);
    put_section(out, "sts.lpc", sts->frames, frames * (size_t)sts->num_channels * 2);
    put_section(out, "sts.resoffs", places, (frames + 1) * 4);
    if (sts->ressizes != NULL)
        put_section(out, "sts.ressize", sts->ressizes, frames);
    put_section(out, "sts.res", sts->residuals, places[frames]);
    put_index(out, source->base);
    free(places);
}

/* ---- a sheet */

static void put_groups(FILE *out, uint32_t number) {
    for (; number >= 128; number /= 128)
        put_byte(out, number % 128 + 128);
    put_byte(out, number);
}

static void put_value(FILE *out, const cst_item *item, const char *name) {
    const cst_val *value = item_feat_present(item, name) ? item_feat(item, name) : NULL;
    if (value == NULL) {
        put_byte(out, ABSENT);
    } else if (CST_VAL_TYPE(value) == CST_VAL_TYPE_INT) {
        int32_t number = val_int(value);
        put_byte(out, WHOLE);
        put(out, &number, 4);
    } else {
        put_byte(out, FLOAT);
        put_f32(out, val_float(value));
    }
}

/* The number of a segment, from 1, or 0 for none. */
static uint32_t number_of(const cst_item *segment) {
    uint32_t number = 0;
    for (; segment != NULL; segment = item_prev(segment))
        number++;
    return number;
}

/* The number of the segment next in the syllable. */
static uint32_t follower(const cst_item *segment) {
    const cst_item *view = item_as(segment, "SylStructure");
    const cst_item *next = view == NULL ? NULL : item_next(view);
    return next == NULL ? 0 : number_of(item_as(next, "Segment"));
}

static const cst_item *first_of(cst_utterance *utterance, const char *relation, uint32_t *count) {
    const cst_item *first = NULL;
    *count = 0;
    if (utt_relation_present(utterance, relation))
        first = relation_head(utt_relation(utterance, relation));
    for (const cst_item *item = first; item != NULL; item = item_next(item))
        *count += 1;
    return first;
}

void write_sheet(FILE *out, cst_utterance *utterance) {
    uint32_t count;
    const cst_item *item = first_of(utterance, "Segment", &count);
    put_groups(out, count);
    for (; item != NULL; item = item_next(item)) {
        put_name(out, item_name(item));
        put_value(out, item, "end");
        put_groups(out, follower(item));
    }
    item = first_of(utterance, "Target", &count);
    put_groups(out, count);
    for (; item != NULL; item = item_next(item)) {
        put_value(out, item, "pos");
        put_value(out, item, "f0");
    }
}

/* ---- in memory */

static FILE *open_bytes(char **at, size_t *length) {
    FILE *out = open_memstream(at, length);
    if (out == NULL)
        stop("no memory");
    return out;
}

static struct bytes close_bytes(FILE *out, char **at, const size_t *length) {
    if (fclose(out) != 0)
        stop("no memory");
    return (struct bytes){(uint8_t *)*at, *length};
}

struct bytes voice_bytes(const struct source *source, const cst_voice *voice) {
    char *at;
    size_t length;
    FILE *out = open_bytes(&at, &length);
    write_voice(out, source, voice);
    return close_bytes(out, &at, &length);
}

struct bytes sheet_bytes(cst_utterance *utterance) {
    char *at;
    size_t length;
    FILE *out = open_bytes(&at, &length);
    write_sheet(out, utterance);
    return close_bytes(out, &at, &length);
}
