/* The calls of the proved end and of the plain C end side by side: nanoseconds for a call, by the regions' length and block counts. Both
 * make the same rounds of calls, and a checksum of what the calls answered and wrote is compared. The least of all runs counts.
 *
 * With three words, a kind of rounds, `plain` or `proved`, and a number, it makes so many rounds and nothing else: bench/instructions.sh
 * counts the instructions. */
#include "seconds.h"

#include "bytes.h"
#include "plain_end.h"
#include "rounds.h"

#include <stdio.h>
#include <stdlib.h>
#include <string.h>

enum { ALIGNMENT = 32, RX_BEGIN = 0x20000000, TX_BEGIN = 0x20100000, LARGEST = 1048576, ROUNDS = 20000, RUNS = 41 };
enum { PROVED_TABLES = 3136 };

/* What a round is made on: the alignment, then the transmit and the receive region. An initiator's receive region is the lower one. Of the
 * first `taken` transmit blocks each `every`-th is reserved beforehand, or all where `every` is 0. */
struct scene {
    uint32_t opening[7];
    uint32_t length;
    uint32_t taken;
    uint32_t every;
    uint32_t k;
    uint32_t rounds;
};

/* The fields of the proved end, as crates/link declares it and crates/icbmsg its numbers, for its size. */
struct proved_region {
    uint32_t length, ring_offset, data_length, blocks_offset;
    uint16_t block_count;
    uint32_t block_size;
};

struct proved_end {
    bool initiator;
    uint16_t alignment;
    struct proved_region tx, rx;
    uint32_t write, read;
    uint8_t tables[PROVED_TABLES];
    struct plain_endpoint endpoints[PLAIN_ENDPOINTS];
    struct plain_binding bindings[PLAIN_BINDINGS];
};

typedef uint32_t rounds_call(const struct scene *scene);

static uint8_t tx[LARGEST];
static uint8_t rx[LARGEST];

/* ---- rounds of the plain end: the same calls as in crates/rounds, and the same checksum */

static uint32_t number_of_refusal(uint32_t number)
{
    return number ? 1000000 + number : 1;
}

static uint32_t number_of_run(uint32_t number, uint32_t start, uint32_t count)
{
    return number ? 1000000 + number : start % 1024 + count % 1024 * 1024;
}

static uint32_t number_of_control(uint32_t number, const uint8_t control[3])
{
    return number ? 1000000 + number : control[0] * 65536u + control[1] * 256u + control[2];
}

static uint32_t number_of_arrival(uint32_t number, const struct plain_outcome *o)
{
    if (number || o->what == PLAIN_NOTHING)
        return number_of_refusal(number);
    if (o->what == PLAIN_CONTROL)
        return o->kind * 65536u + o->address * 256u + o->block;
    return o->address * 256u + o->block + o->length % 65536 * 65536;
}

static uint32_t open_end(struct plain_end *end, const struct scene *scene)
{
    const uint32_t *o = scene->opening;
    return plain_open(end, o[0], (struct plain_bounds){o[1], o[2], o[3]}, (struct plain_bounds){o[4], o[5], o[6]});
}

static void bind_endpoint(struct plain_end *end, const struct scene *scene)
{
    static const uint8_t released[3] = {3, 0, 0};
    struct plain_outcome outcome;
    plain_register(end, tx, scene->length, "bench", 5, &outcome);
    plain_arrival(end, rx, scene->length, released, sizeof released, &outcome);
}

/* The partner takes off all that is pushed. */
static void take_off(const struct plain_end *end)
{
    store(tx + end->tx.ring_offset, end->write);
}

static uint32_t plain_reserves(const struct scene *scene)
{
    static struct plain_end end;
    uint32_t sum = 0, start = 256, count = 0;
    open_end(&end, scene);
    for (uint32_t i = 0; i < scene->taken; i++)
        plain_reserve(&end, 0, &start, &count);
    for (uint32_t i = 0; scene->every && i < scene->taken; i++)
        if ((i + 1) % scene->every)
            plain_drop(&end, i);
    for (uint32_t i = 0; i < scene->rounds; i++) {
        uint32_t number = plain_reserve(&end, scene->k, &start, &count);
        sum += number_of_run(number, start, count);
        sum += number_of_refusal(plain_drop(&end, number ? 256 : start));
    }
    return sum;
}

static uint32_t plain_sends(const struct scene *scene)
{
    static const uint8_t released[3] = {1, 0, 0};
    static struct plain_end end;
    struct plain_outcome outcome;
    uint8_t control[3];
    uint32_t sum = 0, start = 256, count = 0;
    open_end(&end, scene);
    bind_endpoint(&end, scene);
    for (uint32_t i = 0; i < scene->rounds; i++) {
        uint32_t number = plain_reserve(&end, scene->k, &start, &count);
        sum += number_of_run(number, start, count);
        number = plain_send(&end, tx, scene->length, number ? 256 : start, 0, scene->k, control);
        sum += number_of_control(number, control);
        take_off(&end);
        number = plain_arrival(&end, rx, scene->length, released, sizeof released, &outcome);
        sum += number_of_arrival(number, &outcome);
    }
    return sum;
}

static uint32_t plain_arrivals(const struct scene *scene)
{
    static const uint8_t sent[3] = {0, 0, 0};
    static struct plain_end end;
    struct plain_outcome outcome;
    uint8_t control[3];
    uint32_t sum = 0;
    open_end(&end, scene);
    bind_endpoint(&end, scene);
    for (uint32_t i = 0; i < scene->rounds; i++) {
        uint32_t number = plain_arrival(&end, rx, scene->length, sent, sizeof sent, &outcome);
        sum += number_of_arrival(number, &outcome);
        number = plain_done(&end, tx, scene->length, 0, control);
        sum += number_of_control(number, control);
        take_off(&end);
    }
    return sum;
}

/* ---- rounds of the proved end */

static uint32_t proved_reserves(const struct scene *scene)
{
    return petrelknob_rounds_reserve(scene->opening, scene->taken, scene->every, scene->k, scene->rounds);
}

static uint32_t proved_sends(const struct scene *scene)
{
    return petrelknob_rounds_send(scene->opening, tx, scene->length, rx, scene->length, scene->k, scene->rounds);
}

static uint32_t proved_arrivals(const struct scene *scene)
{
    return petrelknob_rounds_arrival(scene->opening, tx, scene->length, rx, scene->length, scene->rounds);
}

/* ---- kinds of rounds */

struct kind {
    const char *name, *what;
    rounds_call *plain, *proved;
    int calls;
};

static const struct kind reserves = {"reserve", "reserve and drop", plain_reserves, proved_reserves, 2};
static const struct kind sends = {"send", "reserve, send and release", plain_sends, proved_sends, 3};
static const struct kind arrivals = {"arrival", "arrival and done", plain_arrivals, proved_arrivals, 2};

/* Rounds with one block each, and a message of 8 bytes in receive block 0. */
static struct scene scene_of(uint32_t length, uint32_t tx_blocks, uint32_t rx_blocks, struct plain_end *end)
{
    struct scene scene = {
        {ALIGNMENT, TX_BEGIN, TX_BEGIN + length, tx_blocks, RX_BEGIN, RX_BEGIN + length, rx_blocks}, length, 0, 0, 8, ROUNDS};
    if (open_end(end, &scene) != 0) {
        fprintf(stderr, "the opening was refused\n");
        exit(1);
    }
    memset(rx, 0, sizeof rx);
    store(rx + end->rx.blocks_offset, 8);
    return scene;
}

/* ---- the table */

/* Each run begins with an empty ring, and what it wrote goes into its sum. */
static double nanoseconds(rounds_call *rounds, const struct scene *scene, uint32_t *sum)
{
    memset(tx, 0, scene->length);
    double began = seconds();
    *sum = rounds(scene);
    double took = seconds() - began;
    for (uint32_t i = 0; i < scene->length; i++)
        *sum = 31 * *sum + tx[i];
    return 1e9 * took / scene->rounds;
}

static void compare(const struct kind *kind, const char *blocks, const struct scene *scene)
{
    double a = 1e9, b = 1e9;
    for (int r = 0; r < RUNS; r++) {
        uint32_t of_plain, of_proved;
        double t = nanoseconds(kind->plain, scene, &of_plain);
        a = t < a ? t : a;
        t = nanoseconds(kind->proved, scene, &of_proved);
        b = t < b ? t : b;
        if (of_plain != of_proved) {
            fprintf(stderr, "%s, %s: the two ends answered or wrote differently, %u and %u\n", kind->what, blocks,
                    (unsigned)of_plain, (unsigned)of_proved);
            exit(1);
        }
    }
    printf("  %-26s %-23s %8.1f %8.1f %8.1f\n", kind->what, blocks, a / kind->calls, b / kind->calls, b / a);
}

static void compare_in(uint32_t length, uint32_t tx_blocks, uint32_t rx_blocks)
{
    static struct plain_end end;
    struct scene scene = scene_of(length, tx_blocks, rx_blocks, &end);
    printf("%u bytes, %u and %u blocks\n", (unsigned)length, (unsigned)tx_blocks, (unsigned)rx_blocks);
    compare(&reserves, "one block", &scene);
    compare(&sends, "one block", &scene);
    compare(&arrivals, "one block", &scene);
    scene.taken = tx_blocks - 1;
    compare(&reserves, "the last free block", &scene);
    scene.taken = 0;
    scene.k = tx_blocks * end.tx.block_size - 4;
    compare(&reserves, "all blocks", &scene);
    compare(&sends, "all blocks", &scene);
}

/* Each `asked`-th block is held, so that a search goes through all blocks, and back from each held one if it rescans. Both calls of a round
 * are refused. */
static void compare_short(struct scene scene, const struct plain_end *end, uint32_t asked)
{
    char blocks[32];
    scene.taken = end->tx.block_count;
    scene.every = asked;
    scene.k = asked * end->tx.block_size - 4;
    snprintf(blocks, sizeof blocks, "%u blocks, runs of %u", (unsigned)asked, (unsigned)(asked - 1));
    compare(&reserves, blocks, &scene);
}

static void compare_too_short(uint32_t length, uint32_t tx_blocks)
{
    static struct plain_end end;
    struct scene scene = scene_of(length, tx_blocks, tx_blocks, &end);
    printf("%u bytes, %u blocks, every free run one block too short\n", (unsigned)length, (unsigned)tx_blocks);
    compare_short(scene, &end, 2);
    compare_short(scene, &end, 16);
    compare_short(scene, &end, tx_blocks / 2);
}

static int run_one(const char *name, const char *which, const char *rounds)
{
    static const struct kind *const kinds[] = {&reserves, &sends, &arrivals};
    static struct plain_end end;
    struct scene scene = scene_of(2048, 16, 32, &end);
    scene.rounds = (uint32_t)strtoul(rounds, NULL, 10);
    for (size_t i = 0; i < sizeof kinds / sizeof kinds[0]; i++)
        if (!strcmp(name, kinds[i]->name)) {
            uint32_t sum = (!strcmp(which, "plain") ? kinds[i]->plain : kinds[i]->proved)(&scene);
            printf("%s, %s, checksum %u\n", kinds[i]->what, which, (unsigned)sum);
            return 0;
        }
    fprintf(stderr, "there are no rounds of %s\n", name);
    return 2;
}

int main(int argc, char **argv)
{
    if (argc == 4)
        return run_one(argv[1], argv[2], argv[3]);
    printf("nanoseconds for a call                                 plain C   proved    ratio\n");
    compare_in(2048, 16, 32);
    compare_in(65536, 256, 256);
    compare_in(LARGEST, 16, 16);
    compare_too_short(65536, 256);
    printf("size of an end in bytes: plain C %zu, proved %zu (by its fields)\n", sizeof(struct plain_end),
           sizeof(struct proved_end));
    return 0;
}
