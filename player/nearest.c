#include "nearest.h"

/* Exact for every float and double: the whole part is a double too, and so is what it leaves. To add a half
   would round: in f32 0.49999997 became 1, and 8388609 became 8388610. */
uint64_t nearest_sample(double place)
{
    uint64_t whole;

    if (!(place > 0))
        return 0;
    if (place >= 18446744073709551616.0)
        return UINT64_MAX;
    whole = (uint64_t)place;
    return whole + (place - (double)whole >= 0.5);
}
