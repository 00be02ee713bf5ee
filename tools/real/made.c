#include "made.h"
#include "../../player/nearest.h"

#include <flite/cst_synth.h>
#include <stdio.h>

/* In the order of their bytes. */
static const char *const PHONES[] = {"aa", "eh", "ih", "k", "m", "n", "ow", "pau", "s", "t"};
static const char *const VOWELS[] = {"aa", "eh", "ih", "ow"};
static const char *const CONSONANTS[] = {"k", "m", "n", "s", "t"};

#define COUNT(list) ((uint32_t)(sizeof list / sizeof *list))
#define ENTRIES (sizeof PHONES / sizeof *PHONES * (sizeof PHONES / sizeof *PHONES))
#define FRAMES 64
#define LEAD_IN 8

/* The next of a row of random numbers, below `limit`. */
static uint32_t below(uint64_t *row, uint32_t limit) {
    *row = *row * 6364136223846793005u + 1442695040888963407u;
    return (uint32_t)(((*row >> 32) * limit) >> 32);
}

/* ---- a voice */

static struct {
    char names[ENTRIES][8];
    cst_diphone_entry entries[ENTRIES];
    unsigned short rows[FRAMES * 4];
    unsigned char residual[FRAMES * 256], sizes[FRAMES];
    unsigned offsets[FRAMES + 1];
    cst_sts_list sts;
    cst_diphone_db base;
} made;

/* Every pair of phones, with two periods or more in either half. */
static void make_index(uint64_t *row) {
    for (size_t i = 0; i < ENTRIES; i++) {
        snprintf(made.names[i], sizeof made.names[i], "%s-%s", PHONES[i / COUNT(PHONES)], PHONES[i % COUNT(PHONES)]);
        made.entries[i].name = made.names[i];
        made.entries[i].start_pm = (unsigned short)below(row, FRAMES - 12);
        made.entries[i].pb_pm = (unsigned char)(2 + below(row, 4));
        made.entries[i].end_pm = (unsigned char)(2 + below(row, 4));
    }
}

/* Codes in runs of the greatest steps, up or down. */
static unsigned char loud_codes(uint64_t *row) {
    static const unsigned char CODES[] = {0x77, 0x77, 0x77, 0x88, 0x88, 0x88, 0x78, 0x87};
    return CODES[below(row, COUNT(CODES))];
}

static void make_periods(int g721, uint64_t *row) {
    for (int i = 0; i < FRAMES; i++) {
        made.sizes[i] = (unsigned char)(20 + below(row, 100));
        unsigned bytes = g721 ? (made.sizes[i] + LEAD_IN + 1u) / 2 : made.sizes[i];
        made.offsets[i + 1] = made.offsets[i] + bytes;
        for (unsigned k = made.offsets[i]; k < made.offsets[i + 1]; k++)
            made.residual[k] = g721 ? loud_codes(row) : (unsigned char)below(row, 256);
    }
    for (uint32_t i = 0; i < COUNT(made.rows); i++)
        made.rows[i] = (unsigned short)below(row, 65536);
}

struct source made_voice(const char *name, int g721, uint64_t seed) {
    make_index(&seed);
    make_periods(g721, &seed);
    made.sts = (cst_sts_list){.frames = made.rows,
                              .residuals = made.residual,
                              .resoffs = made.offsets,
                              .ressizes = g721 ? made.sizes : NULL,
                              .num_sts = FRAMES,
                              .num_channels = g721 ? 2 : 4,
                              .sample_rate = 8000,
                              .coeff_min = -0.4f,
                              .coeff_range = 0.8f,
                              .codec = g721 ? "g721" : NULL};
    made.base = (cst_diphone_db){name, (int)ENTRIES, made.entries, &made.sts};
    return (struct source){name, NULL, &made.base, 0};
}

/* ---- a call */

/* Kinds of ends: the middle between the end and the one before it is another sample in f64 than in f32, truncated
   or to the nearest; or the end stands half a sample after a sample, or on one. */
enum { TRUNCATED, NEAREST, TIE, WHOLE };
static const uint8_t KINDS[] = {TRUNCATED, TRUNCATED, TRUNCATED, NEAREST, NEAREST, NEAREST, TIE, WHOLE};

static int is_kind(uint8_t kind, float before, float end, int rate) {
    float place = end * (float)rate, middle = (before + end) / 2.0f * (float)rate;
    double exact = (before + end) / 2.0 * rate;
    if (kind == TRUNCATED)
        return (int)middle != (int)exact;
    if (kind == NEAREST)
        return nearest_sample(middle) != nearest_sample(exact);
    return place - (float)(int)place == (kind == TIE ? 0.5f : 0);
}

/* An end moved onto a sample, or half a sample after it, where its kind asks for that. */
static float moved(uint8_t kind, float end, int rate) {
    float place = (float)(int)(end * (float)rate);
    if (kind == TRUNCATED || kind == NEAREST)
        return end;
    return (kind == TIE ? place + 0.5f : place) / (float)rate;
}

/* A time after another, now and then long after. Of up to 4,000 the first that is of a kind. */
static float later(float time, int rate, uint64_t *row) {
    float least = below(row, 16) == 0 ? 4 : 0.03f, end = time;
    uint8_t kind = KINDS[below(row, COUNT(KINDS))];
    for (int i = 0; i < 4000; i++) {
        end = moved(kind, time + least + (float)below(row, 1u << 24) * 1e-8f, rate);
        if (is_kind(kind, time, end, rate))
            break;
    }
    return end;
}

/* Phones in turn: a pause, consonants and vowels, a pause. */
static const char *phone(uint32_t place, uint32_t count, uint64_t *row) {
    if (place == 0 || place + 1 == count)
        return "pau";
    return place % 2 == 1 ? CONSONANTS[below(row, COUNT(CONSONANTS))] : VOWELS[below(row, COUNT(VOWELS))];
}

static void add_segment(cst_relation *segments, const char *name, float end) {
    cst_item *segment = relation_append(segments, NULL);
    item_set_string(segment, "name", name);
    item_set_float(segment, "end", end);
}

static void add_target(cst_relation *targets, float position, float f0) {
    cst_item *target = relation_append(targets, NULL);
    item_set_float(target, "pos", position);
    item_set_float(target, "f0", f0);
}

static float make_segments(cst_utterance *utterance, int rate, uint64_t *row) {
    cst_relation *segments = utt_relation_create(utterance, "Segment");
    uint32_t count = 3 + below(row, 12);
    float end = 0;
    for (uint32_t i = 0; i < count; i++) {
        end = later(end, rate, row);
        add_segment(segments, phone(i, count, row), end);
    }
    return end;
}

/* In half of the calls every third target or so has no pitch, the first or the last or several in turn. */
static void leave_out_pitches(cst_relation *targets, uint64_t *row) {
    int whole = below(row, 2) == 0;
    for (cst_item *target = relation_head(targets); target != NULL && !whole; target = item_next(target))
        if (below(row, 3) == 0)
            feat_remove(item_feats(target), "f0");
}

static void make_targets(cst_utterance *utterance, float end, uint64_t *row) {
    cst_relation *targets = utt_relation_create(utterance, "Target");
    uint32_t count = 2 + below(row, 8);
    for (uint32_t i = 0; i < count; i++) {
        float shift = i == 0 || i + 1 == count ? 0 : (float)below(row, 1000) / 1001;
        float position = end * ((float)i + shift) / (float)(count - 1);
        add_target(targets, position, 60 + (float)below(row, 1u << 24) * 1.3e-5f);
    }
    leave_out_pitches(targets, row);
}

static cst_utterance *empty_utterance(const struct made_call *call) {
    cst_utterance *utterance = utt_init(new_utterance(), call->voice);
    utt_set_feat(utterance, "diphone_db", diphone_db_val((cst_diphone_db *)call->source->base));
    return utterance;
}

cst_utterance *make_single_mark(const struct made_call *call) {
    cst_utterance *utterance = empty_utterance(call);
    cst_relation *segments = utt_relation_create(utterance, "Segment");
    add_segment(segments, "pau", 0.1f);
    add_segment(segments, "n", 0.2f);
    add_target(utt_relation_create(utterance, "Target"), 0.005f, 120);
    return utterance;
}

cst_utterance *make_call(const void *from) {
    const struct made_call *call = from;
    uint64_t row = call->seed;
    cst_utterance *utterance = empty_utterance(call);
    make_targets(utterance, make_segments(utterance, call->source->base->sts->sample_rate, &row), &row);
    return utterance;
}
