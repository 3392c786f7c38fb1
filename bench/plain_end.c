#include "plain_end.h"

#include "bytes.h"
#include "plain_packets.h"

#include <string.h>

/* A cleared entry is a free one, a cleared endpoint an unused one. */
enum { FREE, INSIDE, RESERVED, SENT_DATA, SENT_BINDING, RECEIVED, STORED };
enum { UNUSED, WAITING, BOUND };
enum { HEADER = 4, CONTROL = 3, LAST_ADDRESS = 0xFD };

/* ---- the transmit ring */

static struct ring ring_of(const struct plain_end *end, uint8_t *tx)
{
    uint8_t *ring = tx + end->tx.ring_offset;
    return (struct ring){ring, ring + end->alignment, ring + end->alignment + 4, end->tx.data_length};
}

/* Checks 7 and 10 of a control message, before anything is changed for it. */
static uint32_t ring_refuses(const struct plain_end *end, uint8_t *tx)
{
    struct ring ring = ring_of(end, tx);
    return no_room(&ring, end->write, CONTROL);
}

static void push_control(struct plain_end *end, uint8_t *tx, uint8_t kind, uint8_t address, uint32_t block,
                         uint8_t control[CONTROL])
{
    struct ring ring = ring_of(end, tx);
    control[0] = kind;
    control[1] = address;
    control[2] = (uint8_t)block;
    end->write = put(&ring, end->write, control, CONTROL);
}

/* ---- blocks */

static uint32_t blocks_for(const struct plain_region *region, uint32_t k)
{
    return (uint32_t)(((uint64_t)k + HEADER + region->block_size - 1) / region->block_size);
}

/* The lowest start of n free blocks, or -1. */
static int find_run(const struct plain_entry *table, uint32_t block_count, uint32_t n)
{
    uint32_t run = 0;
    for (uint32_t i = 0; i < block_count; i++) {
        if (table[i].use != FREE)
            run = 0;
        else if (++run == n)
            return (int)(i + 1 - n);
    }
    return -1;
}

static void take_run(struct plain_entry *table, uint32_t start, uint32_t n, uint8_t use, uint8_t address, uint32_t length)
{
    table[start] = (struct plain_entry){use, address, (uint16_t)n, length};
    for (uint32_t i = start + 1; i < start + n; i++)
        table[i] = (struct plain_entry){INSIDE, 0, 0, 0};
}

static void free_run(struct plain_entry *table, uint32_t start, uint32_t n)
{
    memset(table + start, 0, n * sizeof *table);
}

/* The entry of the run that starts there in that use, or a null pointer. */
static struct plain_entry *run_at(struct plain_entry *table, uint32_t block_count, uint32_t start, uint8_t use)
{
    return start < block_count && table[start].use == use ? &table[start] : NULL;
}

/* Checks 23 and 24. */
static uint32_t find_room(const struct plain_end *end, uint32_t k, uint32_t *start, uint32_t *count)
{
    uint32_t n = blocks_for(&end->tx, k);
    if (n > end->tx.block_count)
        return 23;
    int found = find_run(end->sent, end->tx.block_count, n);
    if (found < 0)
        return 24;
    *start = (uint32_t)found;
    *count = n;
    return 0;
}

uint32_t plain_reserve(struct plain_end *end, uint32_t k, uint32_t *start, uint32_t *count)
{
    if (!end->open)
        return 6;
    uint32_t number = find_room(end, k, start, count);
    if (number)
        return number;
    take_run(end->sent, *start, *count, RESERVED, 0, 0);
    return 0;
}

uint32_t plain_drop(struct plain_end *end, uint32_t start)
{
    if (!end->open)
        return 6;
    struct plain_entry *run = run_at(end->sent, end->tx.block_count, start, RESERVED);
    if (!run)
        return 25;
    free_run(end->sent, start, run->count);
    return 0;
}

static struct plain_endpoint *endpoint_at(struct plain_end *end, uint8_t stage, uint32_t address)
{
    for (int i = 0; i < PLAIN_ENDPOINTS; i++)
        if (end->endpoints[i].stage == stage && end->endpoints[i].address == address)
            return &end->endpoints[i];
    return NULL;
}

uint32_t plain_send(struct plain_end *end, uint8_t *tx, size_t tx_length, uint32_t start, uint32_t address, uint32_t k,
                    uint8_t control[3])
{
    if (!end->open || tx_length != end->tx.length)
        return 6;
    struct plain_entry *run = run_at(end->sent, end->tx.block_count, start, RESERVED);
    if (!run)
        return 25;
    if (!endpoint_at(end, BOUND, address))
        return 15;
    if ((uint64_t)k + HEADER > run->count * end->tx.block_size)
        return 23;
    uint32_t number = ring_refuses(end, tx);
    if (number)
        return number;
    store(tx + end->tx.blocks_offset + start * end->tx.block_size, k);
    uint32_t n = blocks_for(&end->tx, k);
    free_run(end->sent, start + n, run->count - n);
    *run = (struct plain_entry){SENT_DATA, (uint8_t)address, (uint16_t)n, k};
    push_control(end, tx, 0, (uint8_t)address, start, control);
    return 0;
}

uint32_t plain_done(struct plain_end *end, uint8_t *tx, size_t tx_length, uint32_t start, uint8_t control[3])
{
    if (!end->open || tx_length != end->tx.length)
        return 6;
    struct plain_entry *run = run_at(end->held, end->rx.block_count, start, RECEIVED);
    if (!run)
        return 25;
    uint32_t number = ring_refuses(end, tx);
    if (number)
        return number;
    free_run(end->held, start, run->count);
    push_control(end, tx, 1, 0, start, control);
    return 0;
}

/* ---- arrivals */

/* Checks 16, 17 and 18. The size is read here and nowhere again. */
static uint32_t measure(const struct plain_end *end, const uint8_t *rx, uint8_t block, uint32_t *k, uint32_t *count)
{
    const struct plain_region *region = &end->rx;
    if (block >= region->block_count)
        return 16;
    *k = load(rx + region->blocks_offset + block * region->block_size);
    if ((uint64_t)*k + HEADER > (region->block_count - block) * region->block_size)
        return 17;
    *count = blocks_for(region, *k);
    for (uint32_t i = block; i < block + *count; i++)
        if (end->held[i].use != FREE)
            return 18;
    return 0;
}

/* The endpoint that has the address. At an initiator it has it while it waits, at a follower when it is bound. */
static struct plain_endpoint *receiver(struct plain_end *end, uint8_t address)
{
    uint8_t least = end->initiator ? WAITING : BOUND;
    for (int i = 0; i < PLAIN_ENDPOINTS; i++)
        if (end->endpoints[i].stage >= least && end->endpoints[i].address == address)
            return &end->endpoints[i];
    return NULL;
}

static uint32_t data_arrives(struct plain_end *end, const uint8_t *rx, uint8_t address, uint8_t block,
                             struct plain_outcome *outcome)
{
    uint32_t k, count;
    if (address > LAST_ADDRESS)
        return 14;
    struct plain_endpoint *e = receiver(end, address);
    if (!e)
        return 15;
    uint32_t number = measure(end, rx, block, &k, &count);
    if (number)
        return number;
    take_run(end->held, block, count, RECEIVED, address, k);
    e->stage = BOUND;
    *outcome = (struct plain_outcome){PLAIN_DELIVERED, 0, address, block, k};
    return 0;
}

static uint32_t data_is_released(struct plain_end *end, uint8_t block)
{
    if (block >= end->tx.block_count)
        return 16;
    struct plain_entry *run = run_at(end->sent, end->tx.block_count, block, SENT_DATA);
    if (!run)
        return 25;
    free_run(end->sent, block, run->count);
    return 0;
}

static struct plain_binding *free_binding(struct plain_end *end)
{
    for (int i = 0; i < PLAIN_BINDINGS; i++)
        if (!end->bindings[i].stored)
            return &end->bindings[i];
    return NULL;
}

/* Whether the address or the name belongs to a bound endpoint or a stored binding. */
static bool is_taken(const struct plain_end *end, uint8_t address, const char *name)
{
    for (int i = 0; i < PLAIN_ENDPOINTS; i++) {
        const struct plain_endpoint *e = &end->endpoints[i];
        if (e->stage == BOUND && (e->address == address || !strcmp(e->name, name)))
            return true;
    }
    for (int i = 0; i < PLAIN_BINDINGS; i++) {
        const struct plain_binding *b = &end->bindings[i];
        if (b->stored && (b->address == address || !strcmp(b->name, name)))
            return true;
    }
    return false;
}

static uint32_t binding_arrives(struct plain_end *end, const uint8_t *rx, uint8_t address, uint8_t block,
                                struct plain_outcome *outcome)
{
    uint32_t k, count;
    if (end->initiator)
        return 19;
    if (address > LAST_ADDRESS)
        return 14;
    uint32_t number = measure(end, rx, block, &k, &count);
    if (number)
        return number;
    const uint8_t *text = rx + end->rx.blocks_offset + block * end->rx.block_size + HEADER;
    const uint8_t *zero = memchr(text, 0, k < PLAIN_NAME ? k : PLAIN_NAME);
    if (!zero || zero == text)
        return 20;
    char name[PLAIN_NAME] = {0};
    memcpy(name, text, (size_t)(zero - text));
    if (is_taken(end, address, name))
        return 21;
    for (int i = 0; i < PLAIN_ENDPOINTS; i++) {
        struct plain_endpoint *e = &end->endpoints[i];
        if (e->stage == WAITING && !strcmp(e->name, name)) {
            e->stage = BOUND;
            e->address = address;
            *outcome = (struct plain_outcome){PLAIN_CONTROL, 3, address, block, 0};
            return 0;
        }
    }
    struct plain_binding *b = free_binding(end);
    if (!b)
        return 22;
    *b = (struct plain_binding){true, address, block, (uint16_t)count, {0}};
    memcpy(b->name, name, sizeof name);
    take_run(end->held, block, count, STORED, address, 0);
    return 0;
}

static uint32_t binding_is_released(struct plain_end *end, uint8_t address, uint8_t block)
{
    if (address > LAST_ADDRESS)
        return 14;
    if (block >= end->tx.block_count)
        return 16;
    struct plain_entry *run = run_at(end->sent, end->tx.block_count, block, SENT_BINDING);
    if (!run || run->address != address)
        return 25;
    free_run(end->sent, block, run->count);
    struct plain_endpoint *e = endpoint_at(end, WAITING, address);
    if (e)
        e->stage = BOUND;
    return 0;
}

uint32_t plain_arrival(struct plain_end *end, const uint8_t *rx, size_t rx_length, const uint8_t *message,
                       size_t message_length, struct plain_outcome *outcome)
{
    if (!end->open || rx_length != end->rx.length)
        return 6;
    if (message_length == 0)
        return 12;
    if (message[0] > 3)
        return 13;
    if (message_length < 3)
        return 12;
    outcome->what = PLAIN_NOTHING;
    switch (message[0]) {
    case 0:
        return data_arrives(end, rx, message[1], message[2], outcome);
    case 1:
        return data_is_released(end, message[2]);
    case 2:
        return binding_arrives(end, rx, message[1], message[2], outcome);
    default:
        return binding_is_released(end, message[1], message[2]);
    }
}

/* ---- registering */

static uint8_t unused_address(const struct plain_end *end)
{
    bool given[PLAIN_ENDPOINTS + 1] = {false};
    for (int i = 0; i < PLAIN_ENDPOINTS; i++) {
        const struct plain_endpoint *e = &end->endpoints[i];
        if (e->stage != UNUSED && e->address < PLAIN_ENDPOINTS)
            given[e->address] = true;
    }
    uint8_t address = 0;
    while (given[address])
        address++;
    return address;
}

static void push_outcome(struct plain_end *end, uint8_t *tx, uint8_t kind, uint8_t address, uint32_t block,
                         struct plain_outcome *outcome)
{
    uint8_t control[CONTROL];
    push_control(end, tx, kind, address, block, control);
    *outcome = (struct plain_outcome){PLAIN_CONTROL, kind, address, (uint8_t)block, 0};
}

/* The initiator sends a binding, and the endpoint waits. */
static uint32_t initiate(struct plain_end *end, struct plain_endpoint *e, uint8_t *tx, const char *name, size_t n,
                         struct plain_outcome *outcome)
{
    uint32_t start, count, k = (uint32_t)n + 1;
    uint32_t number = find_room(end, k, &start, &count);
    if (!number)
        number = ring_refuses(end, tx);
    if (number)
        return number;
    e->address = unused_address(end);
    e->stage = WAITING;
    memcpy(e->name, name, PLAIN_NAME);
    take_run(end->sent, start, count, SENT_BINDING, e->address, k);
    uint8_t *message = tx + end->tx.blocks_offset + start * end->tx.block_size;
    store(message, k);
    memcpy(message + HEADER, name, k);
    push_outcome(end, tx, 2, e->address, start, outcome);
    return 0;
}

/* The follower waits, unless a binding of the name is stored. */
static uint32_t follow(struct plain_end *end, struct plain_endpoint *e, uint8_t *tx, const char *name,
                       struct plain_outcome *outcome)
{
    struct plain_endpoint made = {WAITING, 0, {0}};
    for (int i = 0; i < PLAIN_BINDINGS; i++) {
        struct plain_binding *b = &end->bindings[i];
        if (b->stored && !strcmp(b->name, name)) {
            uint32_t number = ring_refuses(end, tx);
            if (number)
                return number;
            made.address = b->address;
            made.stage = BOUND;
            free_run(end->held, b->start, b->count);
            push_outcome(end, tx, 3, b->address, b->start, outcome);
            memset(b, 0, sizeof *b);
            break;
        }
    }
    memcpy(made.name, name, PLAIN_NAME);
    *e = made;
    return 0;
}

uint32_t plain_register(struct plain_end *end, uint8_t *tx, size_t tx_length, const char *name, size_t name_length,
                        struct plain_outcome *outcome)
{
    if (!end->open || tx_length != end->tx.length)
        return 6;
    if (name_length < 1 || name_length >= PLAIN_NAME || memchr(name, 0, name_length))
        return 20;
    char kept[PLAIN_NAME] = {0};
    memcpy(kept, name, name_length);
    struct plain_endpoint *unused = NULL;
    for (int i = PLAIN_ENDPOINTS - 1; i >= 0; i--) {
        struct plain_endpoint *e = &end->endpoints[i];
        if (e->stage == UNUSED)
            unused = e;
        else if (!strcmp(e->name, kept))
            return 21;
    }
    if (!unused)
        return 22;
    outcome->what = PLAIN_NOTHING;
    if (end->initiator)
        return initiate(end, unused, tx, kept, name_length, outcome);
    return follow(end, unused, tx, kept, outcome);
}
