/* The rule by which a place between two samples becomes a sample. */
#ifndef PLAYER_NEAREST_H
#define PLAYER_NEAREST_H

#include <stdint.h>

/* The sample nearest to a place, an exact half going up; 0 below zero and for a NaN. What is above every
   number of 64 bits is the greatest. */
uint64_t nearest_sample(double place);

#endif
