/* What the examples say of a number. */
#ifndef TOLD_H
#define TOLD_H

#include <petrelknob_numbers.h>
#include <stdio.h>

static inline uint32_t told(const char *what, uint32_t number)
{
    printf("%s: number %u, %s\n", what, (unsigned)number, petrelknob_meaning(number));
    return number;
}

#endif
