/* Flite's wave synthesis in its own steps, as they are and with the places mended where flite departs
   from the engine. */
#ifndef REAL_STEPS_H
#define REAL_STEPS_H

#include "../../include/diphone.h"
#include "source.h"

/* A join and a filter, by the flags of diphone.h. */
struct setting {
    uint32_t join, filter;
    const char *name;
};

#define SETTINGS 4
extern const struct setting SETTING[SETTINGS];

/* What can be mended, in this order, each after those before it:
   ENDS   a unit's second target end is worked out in f64, here and in the Rust in f32
   ROUND  target ends are truncated, as in the Rust; here they go to the nearest sample
   SLOPE  the slope between targets is worked out in f32, here in f64 and then rounded
   TRAP   mu-law encoding gives 2 in place of 0, and 127 for the sample -32768 */
enum { ENDS, ROUND, SLOPE, TRAP, MENDS };

/* Fills in the pitches that targets lack, as flite ends the program at a target without one: that of the target
   before, written or filled in, or 120 for the first. Answers how many there were. */
size_t fill_pitches(cst_utterance *utterance);

/* Speaks a fresh utterance by get_diphone_units, asis_to_pm or f0_targets_to_pm, concat_units and
   lpc_resynth_fixedpoint or lpc_resynth. So many places are mended; `ours` has the engine's bytes for TRAP.
   Counts in `changed` the ends, marks and bytes that each mend changed. */
void speak_in_steps(cst_utterance *utterance, const struct setting *setting, int mends, const cst_lpcres *ours,
                    size_t changed[MENDS]);

/* Speaks a fresh utterance by diphone_synth, as its features say. Answers 0 if flite has no such setting:
   its simple join has the fixed filter alone. */
int speak_by_features(cst_utterance *utterance, const struct setting *setting);

/* The periods that were spoken. */
const cst_lpcres *periods_of(const cst_utterance *utterance);

#endif
