/* Plain C and the proved code side by side, as a row of a table. The plain code is compiled twice, with -O2 and with -O3. Each round
 * runs the three one after the other, and the least of all rounds counts. */
#ifndef SIDE_BY_SIDE_H
#define SIDE_BY_SIDE_H

#include <stdio.h>
#include <stdlib.h>

enum { PLAIN, PLAIN_O3, PROVED, WAYS };

/* Rounds are short, so that some of them have the processor to themselves. */
enum { ROUNDS = 401 };

static inline void expect(int met, const char *what)
{
    if (met)
        return;
    fprintf(stderr, "%s\n", what);
    exit(1);
}

/* Makes a round of calls on the scene in one of the ways, and gives the nanoseconds for one of them. */
typedef double one_round(const void *scene, int way);

static inline void print_head(const char *what)
{
    printf("%-33s %8s %8s %8s %9s %6s\n", what, "C -O2", "C -O3", "proved", "to -O2", "to -O3");
}

static inline void print_row(const char *what, one_round *round, const void *scene)
{
    double least[WAYS] = {1e9, 1e9, 1e9};
    for (int r = 0; r < ROUNDS; r++)
        for (int way = 0; way < WAYS; way++) {
            double took = round(scene, way);
            least[way] = took < least[way] ? took : least[way];
        }
    printf("%-33s %8.1f %8.1f %8.1f %9.2f %6.2f\n", what, least[PLAIN], least[PLAIN_O3], least[PROVED],
           least[PROVED] / least[PLAIN], least[PROVED] / least[PLAIN_O3]);
}

#endif
