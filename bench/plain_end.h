/* One end of the link in plain C, its state behind a pointer: what the proved end is measured against. Calls give a refusal's number,
 * or 0. Send, done and register push their three bytes themselves, all or nothing. Opening has its own file, plain_open.c. */
#ifndef PLAIN_END_H
#define PLAIN_END_H

#include <stdbool.h>
#include <stddef.h>
#include <stdint.h>

enum { PLAIN_BLOCKS = 256, PLAIN_ENDPOINTS = 8, PLAIN_BINDINGS = 8, PLAIN_NAME = 32 };

/* A block's entry. Of a run's first block: in what use, whose address, how many blocks, how many bytes. */
struct plain_entry {
    uint8_t use;
    uint8_t address;
    uint16_t count;
    uint32_t length;
};

struct plain_region {
    uint32_t length;
    uint32_t ring_offset;
    uint32_t data_length;
    uint32_t blocks_offset;
    uint32_t block_count;
    uint32_t block_size;
};

struct plain_endpoint {
    uint8_t stage;
    uint8_t address;
    char name[PLAIN_NAME];
};

struct plain_binding {
    bool stored;
    uint8_t address;
    uint16_t start;
    uint16_t count;
    char name[PLAIN_NAME];
};

struct plain_end {
    bool open;
    bool initiator;
    uint32_t alignment;
    struct plain_region tx;
    struct plain_region rx;
    uint32_t write;
    struct plain_entry sent[PLAIN_BLOCKS];
    struct plain_entry held[PLAIN_BLOCKS];
    struct plain_endpoint endpoints[PLAIN_ENDPOINTS];
    struct plain_binding bindings[PLAIN_BINDINGS];
};

struct plain_bounds {
    uint32_t begin;
    uint32_t end;
    uint32_t block_count;
};

/* What an arrival or a registration comes to: nothing more, a message for its endpoint, or a control message, which a registration has
 * pushed. */
struct plain_outcome {
    enum { PLAIN_NOTHING, PLAIN_DELIVERED, PLAIN_CONTROL } what;
    uint8_t kind;
    uint8_t address;
    uint8_t block;
    uint32_t length;
};

uint32_t plain_open(struct plain_end *end, uint32_t alignment, struct plain_bounds tx, struct plain_bounds rx);

uint32_t plain_reserve(struct plain_end *end, uint32_t k, uint32_t *start, uint32_t *count);

uint32_t plain_drop(struct plain_end *end, uint32_t start);

/* Gives the three bytes that are pushed. */
uint32_t plain_send(struct plain_end *end, uint8_t *tx, size_t tx_length, uint32_t start, uint32_t address, uint32_t k,
                    uint8_t control[3]);

/* Gives the three bytes that are pushed. */
uint32_t plain_done(struct plain_end *end, uint8_t *tx, size_t tx_length, uint32_t start, uint8_t control[3]);

uint32_t plain_arrival(struct plain_end *end, const uint8_t *rx, size_t rx_length, const uint8_t *message,
                       size_t message_length, struct plain_outcome *outcome);

uint32_t plain_register(struct plain_end *end, uint8_t *tx, size_t tx_length, const char *name, size_t name_length,
                        struct plain_outcome *outcome);

#endif
