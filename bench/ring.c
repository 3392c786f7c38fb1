/* The proved ring and the plain C ring side by side, then the ring of a plain unit in the same way: nanoseconds for a push and a
 * pull together, by the content's length, for a pull that finds nothing, and for a start. Both have the same interface, layout and
 * checks. */
#include "seconds.h"

#include "plain_ring.h"
#include "side_by_side.h"

#include <petrelknob.h>
#include <string.h>

/* 256 blocks each way: the ring then has 8,156 data bytes, enough for the longest content. A unit's region has as many, and no more. */
enum { BEGIN = 0x20070000, LENGTH = 32768, END = BEGIN + LENGTH, BLOCKS = 256, ALIGNMENT = 32, LONGEST = 4000 };
enum { UNIT_LENGTH = 8192, UNIT_END = BEGIN + UNIT_LENGTH };
/* Of a round, with a short content. */
enum { CALLS = 20000 };

/* The length, the own index and the bytes dropped. */
enum { NUMBERS = 3 };

typedef uint32_t start_call(uint32_t, uint32_t, uint32_t, uint32_t, uint32_t, uint8_t *, size_t, uint32_t *, size_t);
typedef uint32_t push_call(uint32_t, uint32_t, uint32_t, uint32_t, uint32_t, uint32_t, uint8_t *, size_t,
                           const uint8_t *, size_t, uint32_t *, size_t);
typedef uint32_t pull_call(uint32_t, uint32_t, uint32_t, uint32_t, uint32_t, uint32_t, uint8_t *, size_t, uint8_t *,
                           size_t, uint32_t *, size_t);
typedef uint32_t unit_start_call(uint32_t, uint32_t, uint32_t, uint8_t *, size_t, uint32_t *, size_t);
typedef uint32_t unit_push_call(uint32_t, uint32_t, uint32_t, uint32_t, uint8_t *, size_t, const uint8_t *, size_t,
                                uint32_t *, size_t);
typedef uint32_t unit_receive_call(uint32_t, uint32_t, uint32_t, uint32_t, uint8_t *, size_t, uint8_t *, size_t,
                                   uint32_t *, size_t);

static uint8_t region[LENGTH];
static uint8_t content[LONGEST];
static uint8_t buffer[LONGEST];

/* plain_ring.c with -O3: the Makefile gives its calls these names. */
start_call plain_start_O3;
push_call plain_push_O3;
pull_call plain_pull_O3;
unit_start_call plain_unit_start_O3;
unit_push_call plain_unit_push_O3;
unit_receive_call plain_unit_receive_O3;

/* The calls of a ring, or those of a unit: the others are null. */
struct calls {
    start_call *start;
    push_call *push;
    pull_call *pull;
    unit_start_call *unit_start;
    unit_push_call *unit_push;
    unit_receive_call *unit_receive;
};

static const struct calls rings[WAYS] = {
    [PLAIN] = {.start = plain_start, .push = plain_push, .pull = plain_pull},
    [PLAIN_O3] = {.start = plain_start_O3, .push = plain_push_O3, .pull = plain_pull_O3},
    [PROVED] = {.start = petrelknob_start, .push = petrelknob_push, .pull = petrelknob_pull},
};
static const struct calls units[WAYS] = {
    [PLAIN] = {.unit_start = plain_unit_start, .unit_push = plain_unit_push, .unit_receive = plain_unit_receive},
    [PLAIN_O3] = {.unit_start = plain_unit_start_O3, .unit_push = plain_unit_push_O3, .unit_receive = plain_unit_receive_O3},
    [PROVED] = {.unit_start = petrelknob_unit_start, .unit_push = petrelknob_unit_push, .unit_receive = petrelknob_unit_receive},
};

/* Each is one call, of the ring or of the unit. A test says which: a function in between would be measured too. */

static inline uint32_t start(const struct calls *calls, uint32_t *written)
{
    if (calls->start)
        return calls->start(BEGIN, END, BLOCKS, BLOCKS, ALIGNMENT, region, LENGTH, written, NUMBERS);
    return calls->unit_start(BEGIN, UNIT_END, ALIGNMENT, region, UNIT_LENGTH, written, NUMBERS);
}

static inline uint32_t push(const struct calls *calls, size_t length, uint32_t *written)
{
    if (calls->push)
        return calls->push(BEGIN, END, BLOCKS, BLOCKS, ALIGNMENT, written[1], region, LENGTH, content, length, written, NUMBERS);
    return calls->unit_push(BEGIN, UNIT_END, ALIGNMENT, written[1], region, UNIT_LENGTH, content, length, written, NUMBERS);
}

static inline uint32_t pull(const struct calls *calls, uint32_t *read)
{
    if (calls->pull)
        return calls->pull(BEGIN, END, BLOCKS, BLOCKS, ALIGNMENT, read[1], region, LENGTH, buffer, LONGEST, read, NUMBERS);
    return calls->unit_receive(BEGIN, UNIT_END, ALIGNMENT, read[1], region, UNIT_LENGTH, buffer, LONGEST, read, NUMBERS);
}

/* Pushes the content and pulls it, as often as said. */
static void pairs(const struct calls *calls, size_t length, uint32_t times)
{
    uint32_t written[NUMBERS] = {0}, read[NUMBERS] = {0};
    for (uint32_t i = 0; i < times; i++)
        expect(push(calls, length, written) == 0 && pull(calls, read) == 0 && read[0] == length, "a push or a pull was refused");
    expect(memcmp(buffer, content, length) == 0, "a pull gave other bytes");
}

/* Pulls of an empty ring: the checks, and one look at the partner's index. */
static void looks(const struct calls *calls, size_t length, uint32_t times)
{
    uint32_t read[NUMBERS] = {0};
    (void)length;
    for (uint32_t i = 0; i < times; i++)
        expect(pull(calls, read) == PETRELKNOB_EMPTY, "a pull of an empty ring found something");
}

static void starts(const struct calls *calls, size_t length, uint32_t times)
{
    uint32_t written[NUMBERS] = {0};
    for (uint32_t i = 0; i < times; i++)
        expect(start(calls, written) == 0 && written[0] == length, "a start was refused");
}

typedef void work(const struct calls *, size_t, uint32_t);

struct scene {
    work *work;
    const struct calls *ways;
    size_t length;
};

/* On a cleared region. */
static double round_of(const void *measured, int way)
{
    const struct scene *scene = measured;
    uint32_t times = scene->length < 100 ? CALLS : CALLS / 4;
    memset(region, 0, sizeof region);
    double began = seconds();
    scene->work(&scene->ways[way], scene->length, times);
    return 1e9 * (seconds() - began) / times;
}

static void compare(const char *what, work *work, const struct calls ways[WAYS], size_t length)
{
    struct scene scene = {work, ways, length};
    print_row(what, round_of, &scene);
}

static void compare_all(const struct calls ways[WAYS], const char *pair, const char *look, const char *beginning)
{
    static const size_t lengths[] = {3, 64, 1000, LONGEST};
    for (size_t i = 0; i < sizeof lengths / sizeof lengths[0]; i++) {
        char what[40];
        snprintf(what, sizeof what, "%s, %4u bytes", pair, (unsigned)lengths[i]);
        compare(what, pairs, ways, lengths[i]);
    }
    compare(look, looks, ways, 0);
    compare(beginning, starts, ways, 13);
}

int main(void)
{
    for (size_t i = 0; i < sizeof content; i++)
        content[i] = (uint8_t)(i * 7 + 1);

    print_head("nanoseconds");
    compare_all(rings, "push and pull", "pull of an empty ring", "start");
    compare_all(units, "unit push and receive", "unit receive of an empty ring", "unit start");
    return 0;
}
