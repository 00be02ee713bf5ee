#include "steps.h"
#include "../../player/nearest.h"

#include <flite/cst_sigpr.h>
#include <flite/cst_units.h>
#include <stdlib.h>
#include <string.h>

const struct setting SETTING[SETTINGS] = {
    {DIPHONE_JOIN_SIMPLE, DIPHONE_FILTER_FIXED, "simple, fixed"},
    {DIPHONE_JOIN_MODIFIED, DIPHONE_FILTER_FIXED, "modified, fixed"},
    {DIPHONE_JOIN_SIMPLE, DIPHONE_FILTER_FLOAT, "simple, float"},
    {DIPHONE_JOIN_MODIFIED, DIPHONE_FILTER_FLOAT, "modified, float"},
};

static cst_lpcres *periods(const cst_utterance *utterance) {
    return val_lpcres(utt_feat_val(utterance, "target_lpcres"));
}

const cst_lpcres *periods_of(const cst_utterance *utterance) { return periods(utterance); }

static int rate_of(const cst_utterance *utterance) {
    return val_sts_list(utt_feat_val(utterance, "sts_list"))->sample_rate;
}

/* ---- pitches */

size_t fill_pitches(cst_utterance *utterance) {
    float f0 = 120;
    size_t filled = 0;
    cst_item *target = NULL;
    if (utt_relation_present(utterance, "Target"))
        target = relation_head(utt_relation(utterance, "Target"));
    for (; target != NULL; target = item_next(target))
        if (item_feat_present(target, "f0")) {
            f0 = item_feat_float(target, "f0");
        } else {
            item_set_float(target, "f0", f0);
            filled++;
        }
    return filled;
}

/* ---- target ends */

static int truncated(float place) { return (int)place; }

static int nearest(float place) { return (int)nearest_sample(place); }

/* Gives a unit a target end; answers whether it had another. */
static size_t set_end(cst_item *unit, int end) {
    size_t changed = item_feat_int(unit, "target_end") != end;
    item_set_int(unit, "target_end", end);
    return changed;
}

/* Each pair's two target ends in f32, made whole by a rule. Answers how many changed. */
static size_t mend_ends(cst_utterance *utterance, int (*whole)(float place)) {
    float rate = (float)rate_of(utterance);
    const cst_item *left = relation_head(utt_relation(utterance, "Segment"));
    cst_item *unit = relation_head(utt_relation(utterance, "Unit"));
    size_t changed = 0;
    for (; unit != NULL; unit = item_next(item_next(unit)), left = item_next(left)) {
        float end = item_feat_float(left, "end"), sum = end + item_feat_float(item_next(left), "end");
        changed += set_end(unit, whole(end * rate));
        changed += set_end(item_next(unit), whole(sum / 2.0f * rate));
    }
    return changed;
}

/* ---- marks */

/* f0_targets_to_pm with the slope worked out in f64. Writes the marks unless `marks` is NULL; answers
   how many there are. */
static int marks_by_slope(cst_utterance *utterance, int *marks) {
    double time = 0, last_position = 0, last_f0 = 120;
    int count = 0;
    const cst_item *target = relation_head(utt_relation(utterance, "Target"));
    for (; target != NULL; target = item_next(target)) {
        double position = item_feat_float(target, "pos"), f0 = item_feat_float(target, "f0");
        float slope = (float)((f0 - last_f0) / (position - last_position));
        for (; time < position; count++) {
            time += 1 / (last_f0 + (time - last_position) * slope);
            if (marks != NULL)
                marks[count] = (int)(rate_of(utterance) * time);
        }
        last_f0 = f0;
        last_position = position;
    }
    return count;
}

static size_t mend_marks(cst_utterance *utterance) {
    cst_lpcres *old = periods(utterance), *mended = new_lpcres();
    size_t changed = 0;
    lpcres_resize_frames(mended, marks_by_slope(utterance, NULL));
    marks_by_slope(utterance, mended->times);
    for (int i = 0; i < old->num_frames || i < mended->num_frames; i++)
        changed += i >= old->num_frames || i >= mended->num_frames || old->times[i] != mended->times[i];
    utt_set_feat(utterance, "target_lpcres", lpcres_val(mended));
    return changed;
}

/* ---- mu-law bytes */

/* Puts a 0 where the engine has one and flite has what its encoder gives in place of it. */
static size_t mend_traps(cst_lpcres *spoken, const cst_lpcres *ours) {
    size_t changed = 0;
    for (int i = 0; i < ours->num_samples && i < spoken->num_samples; i++)
        if (ours->residual[i] == 0 && (spoken->residual[i] == 2 || spoken->residual[i] == 127)) {
            spoken->residual[i] = 0;
            changed++;
        }
    return changed;
}

/* ---- all steps */

static void filter(cst_utterance *utterance, uint32_t number) {
    cst_lpcres *spoken = periods(utterance);
    utt_set_wave(utterance, number == DIPHONE_FILTER_FIXED ? lpc_resynth_fixedpoint(spoken) : lpc_resynth(spoken));
}

void speak_in_steps(cst_utterance *utterance, const struct setting *setting, int mends, const cst_lpcres *ours,
                    size_t changed[MENDS]) {
    memset(changed, 0, MENDS * sizeof *changed);
    get_diphone_units(utterance);
    if (setting->join == DIPHONE_JOIN_SIMPLE) {
        asis_to_pm(utterance);
    } else {
        if (mends > ENDS)
            changed[ENDS] = mend_ends(utterance, truncated);
        if (mends > ROUND)
            changed[ROUND] = mend_ends(utterance, nearest);
        f0_targets_to_pm(utterance);
        if (mends > SLOPE)
            changed[SLOPE] = mend_marks(utterance);
    }
    concat_units(utterance);
    if (mends > TRAP)
        changed[TRAP] = mend_traps(periods(utterance), ours);
    filter(utterance, setting->filter);
}

int speak_by_features(cst_utterance *utterance, const struct setting *setting) {
    int simple = setting->join == DIPHONE_JOIN_SIMPLE, fixed = setting->filter == DIPHONE_FILTER_FIXED;
    if (simple && !fixed)
        return 0;
    utt_set_feat_string(utterance, "join_type", simple ? "simple_join" : "modified_lpc");
    utt_set_feat_string(utterance, "resynth_type", fixed ? "fixed" : "float");
    diphone_synth(utterance);
    return 1;
}
