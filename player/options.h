/* The player's command line. */
#ifndef PLAYER_OPTIONS_H
#define PLAYER_OPTIONS_H

#include <stdint.h>
#include <stdio.h>

enum output { OUTPUT_LIST, OUTPUT_RAW, OUTPUT_WAV, OUTPUT_NONE };

/* What the player is asked for. */
enum task { TASK_SPEAK, TASK_HELP, TASK_VERSION };

struct options {
    const char *voice; /* a file, or - for standard input */
    const char *sheet;
    uint32_t join, filter, fold, strict; /* the flags of diphone.h */
    double gain;     /* in decibels */
    enum output output;
    const char *wav; /* the file of OUTPUT_WAV, or - for standard output */
    int report, ends; /* whether this table is printed; not both are */
    enum task task;
};

/* Reads the command line. Answers 0, or says on standard error what is wrong and answers -1. */
int read_options(struct options *options, int count, char **words);

void print_usage(FILE *stream);

#endif
