/* Which refusals have a place. */
#ifndef PLACES_H
#define PLACES_H

#include "oarcradler.h"

/* Whether a number is that of a refusal which judges a bit: 10 to 35, and 53. */
static inline int has_place(uint32_t number)
{
    return (number >= OARCRADLER_REFUSED_NO_BITS && number <= OARCRADLER_REFUSED_OUT_OF_STEP) || number == OARCRADLER_REFUSED_OTHER_ELEMENT;
}

#endif
