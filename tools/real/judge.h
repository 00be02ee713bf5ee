/* Compares a call of the engine with flite's own samples, and tells the causes of a difference apart. */
#ifndef REAL_JUDGE_H
#define REAL_JUDGE_H

#include "../../player/speech.h"
#include "steps.h"

/* Further causes, which lie in flite's float filter and cannot be mended from outside:
   WRAP     a sample past 16 bits keeps its low bits, here it is the nearest limit
   SILENCE  zeros follow the last period, up to the last pitch mark made */
enum { WRAP = MENDS, SILENCE, CAUSES };
extern const char *const CAUSE[CAUSES];

struct call {
    cst_utterance *(*make)(const void *from); /* a fresh utterance, the same each time; targets may lack a pitch */
    const void *from;
    const struct bytes *voice;
};

struct verdict {
    uint32_t refusal; /* the engine's, and nothing is compared */
    size_t samples;   /* the engine's */
    size_t filled;    /* how many targets have no pitch; flite's is filled in */
    int equal;        /* flite's samples are these and no more */
    size_t period, sample;   /* else where the first differing one stands, from 0 */
    size_t cause[CAUSES];    /* how many target ends, marks, bytes and samples differ, where it matters */
    size_t changed[MENDS];   /* how many target ends, marks and bytes differ at all */
    int unexplained;         /* not alike with every place mended: period and sample are of that run */
};

struct verdict judge(const struct call *call, const struct setting *setting);

/* Verdicts of many calls: how many have a target without a pitch, how many are equal, how many are or have no
   cause but ROUND, how many have each cause. */
struct tally {
    size_t calls, filled, samples, equal, but_round, unexplained;
    size_t cause[CAUSES], changed[MENDS];
};

/* Counts a verdict. Prints where the call differs, and why, if it is the first with a cause or unexplained. */
void take_verdict(struct tally *tally, const struct verdict *verdict, const char *what, size_t number,
                  const struct setting *setting);

/* Prints a table with a line for each setting. Answers how many calls are unexplained. */
size_t print_tallies(const char *voice, const struct tally tally[SETTINGS]);

#endif
