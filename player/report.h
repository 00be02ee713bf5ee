/* Prints what the report of a call tells: the pair of each period, and where each phone ends. */
#ifndef PLAYER_REPORT_H
#define PLAYER_REPORT_H

#include "sheet.h"
#include "speech.h"

#include <stdio.h>

/* A line for each period: its number, pair, half, first sample and size, and the names of the pair's two
   phones. */
void print_report(FILE *stream, const struct speech *speech, const struct phones *phones);

/* A line for each phone: its number, its name, and the sample where it ends, by the sheet and really. */
void print_ends(FILE *stream, const struct speech *speech, const struct phones *phones);

#endif
