/* What the examples with two processes share. Include it first: it asks the C library for more than C99. */
#ifndef TWO_PROCESSES_H
#define TWO_PROCESSES_H

#define _DEFAULT_SOURCE
#include "told.h"

#include <petrelknob.h>
#include <stdlib.h>
#include <sys/mman.h>
#include <sys/wait.h>
#include <unistd.h>

enum { WAITS = 100000, PAUSE_MICROSECONDS = 100 };

static inline void expect_accepted(const char *who, const char *call, uint32_t number)
{
    if (number == PETRELKNOB_ACCEPTED)
        return;
    printf("%s: %s refused, number %u: %s\n", who, call, (unsigned)number, petrelknob_meaning(number));
    exit(1);
}

/* Whether to try once more: 1 at once for the first try, then after a pause, and 0 after ten seconds at least. A real link would
 * wait for the other core's doorbell. */
static inline int again(int *tries)
{
    if (*tries > 0)
        usleep(PAUSE_MICROSECONDS);
    return (*tries)++ < WAITS;
}

static inline uint8_t *share(size_t length)
{
    void *memory = mmap(NULL, length, PROT_READ | PROT_WRITE, MAP_SHARED | MAP_ANONYMOUS, -1, 0);
    if (memory == MAP_FAILED) {
        perror("mmap");
        exit(1);
    }
    return (uint8_t *)memory;
}

/* One side of the link, with the memory that it says in and the memory that it hears in. */
typedef void one_side(uint8_t *says, uint8_t *hears);

/* Runs the second side in a process of its own, and the first in this one. Only the two memories are shared. */
static inline void run_both(one_side *first, uint8_t *first_says, one_side *second, uint8_t *second_says)
{
    fflush(stdout);
    pid_t child = fork();
    if (child < 0) {
        perror("fork");
        exit(1);
    }
    if (child == 0) {
        second(second_says, first_says);
        exit(0);
    }
    first(first_says, second_says);

    int status;
    if (waitpid(child, &status, 0) != child || status != 0)
        exit(1);
}

#endif
