/* Builds a short call script in memory, runs it, and prints what came of each record: an initiator that registers an endpoint and
 * prepares a message, and calls that are refused. docs/SCRIPT.md has the format. */
#include <petrelknob.h>
#include <petrelknob_script.h>
#include <stdio.h>
#include <string.h>

enum { REGION_LENGTH = 2048, MOST_RECORDS = 32, MOST_SCRIPT_BYTES = 1024 };

static uint8_t script[MOST_SCRIPT_BYTES];
static size_t script_length;

/* What each row is for, in words. */
static const char *labels[1 + MOST_RECORDS];
static size_t label_count;

static void put(uint32_t number, int bytes)
{
    for (int i = 0; i < bytes; i++)
        script[script_length++] = (uint8_t)(number >> 8 * i);
}

static void label(const char *text)
{
    labels[label_count++] = text;
}

/* A record of any bytes. */
static void bytes_record(const char *text, enum petrelknob_record kind, const char *body, size_t length)
{
    label(text);
    put(kind, 1);
    put((uint32_t)length, 2);
    memcpy(script + script_length, body, length);
    script_length += length;
}

/* A record of numbers. */
static void record(const char *text, enum petrelknob_record kind, const uint32_t *numbers, int count)
{
    label(text);
    put(kind, 1);
    put(4 * (uint32_t)count, 2);
    for (int i = 0; i < count; i++)
        put(numbers[i], 4);
}

#define NUMBERS(...) (const uint32_t[]){__VA_ARGS__}, sizeof(uint32_t[]){__VA_ARGS__} / sizeof(uint32_t)

/* The regions of the public specification's example, as the side that receives in the lower one sees them: the initiator. */
static void opening(void)
{
    label("opening");
    put(0x20078000, 4); /* transmit: begin, end */
    put(0x20078800, 4);
    put(0x20070000, 4); /* receive: begin, end */
    put(0x20070800, 4);
    put(32, 2); /* transmit blocks, receive blocks, alignment */
    put(16, 2);
    put(32, 2);
}

static void build(void)
{
    opening();
    record("start", PETRELKNOB_RECORD_START, NULL, 0);
    bytes_record("register \"pump\"", PETRELKNOB_RECORD_REGISTER, "pump", 4);
    bytes_record("register \"pump\" again", PETRELKNOB_RECORD_REGISTER, "pump", 4);
    record("reserve 200 bytes", PETRELKNOB_RECORD_RESERVE, NUMBERS(200));
    record("room of start 1", PETRELKNOB_RECORD_ROOM, NUMBERS(1));
    record("room question, 2048 bytes", PETRELKNOB_RECORD_ROOM_QUESTION, NUMBERS(1, REGION_LENGTH));
    record("room question, 2047 bytes", PETRELKNOB_RECORD_ROOM_QUESTION, NUMBERS(1, REGION_LENGTH - 1));
    record("room question, start 2", PETRELKNOB_RECORD_ROOM_QUESTION, NUMBERS(2, REGION_LENGTH));
    record("send, not bound yet", PETRELKNOB_RECORD_SEND, NUMBERS(1, 0, 200));
    bytes_record("the partner's release", PETRELKNOB_RECORD_ARRIVAL, "\3\0\0", 3);
    record("send 20 of the 200 bytes", PETRELKNOB_RECORD_SEND, NUMBERS(1, 0, 20));
    record("reserve 1021 bytes", PETRELKNOB_RECORD_RESERVE, NUMBERS(1021));
    record("reserve 1020 bytes", PETRELKNOB_RECORD_RESERVE, NUMBERS(1020));
    bytes_record("a control message of kind 7", PETRELKNOB_RECORD_ARRIVAL, "\7\0\0", 3);
}

static uint32_t number_at(const uint8_t *row, int at)
{
    const uint8_t *b = row + 4 * at;
    return (uint32_t)b[0] | (uint32_t)b[1] << 8 | (uint32_t)b[2] << 16 | (uint32_t)b[3] << 24;
}

/* What is given with an answer, in words. */
static const char *given(const uint8_t *row)
{
    switch (number_at(row, PETRELKNOB_ROW_GIVEN)) {
    case PETRELKNOB_GIVEN_NOTHING:
        return "nothing";
    case PETRELKNOB_GIVEN_LENGTH:
        return "length";
    case PETRELKNOB_GIVEN_RUN:
        return "run";
    case PETRELKNOB_GIVEN_CONTROL:
        return "control bytes";
    case PETRELKNOB_GIVEN_DELIVERY:
        return "delivery";
    default:
        return "unknown";
    }
}

static void print_row(const char *text, const uint8_t *row)
{
    uint32_t number = number_at(row, PETRELKNOB_ROW_NUMBER);
    uint32_t count = number_at(row, PETRELKNOB_ROW_VALUES);
    uint32_t size = number_at(row, PETRELKNOB_ROW_PLACE_SIZE);
    char answer[64] = "";
    size_t used = 0;

    for (uint32_t i = 0; i < count; i++)
        used += (size_t)snprintf(answer + used, sizeof answer - used, " %u", (unsigned)number_at(row, PETRELKNOB_ROW_VALUE_1 + (int)i));
    if (size > 0)
        snprintf(answer + used, sizeof answer - used, " place %u, %u bytes",
                 (unsigned)number_at(row, PETRELKNOB_ROW_PLACE_BEGIN), (unsigned)size);
    printf("%-28s %6u   %-13s %-22s %4u %2u", text, (unsigned)number, given(row), answer,
           (unsigned)number_at(row, PETRELKNOB_ROW_FREE_TX), (unsigned)number_at(row, PETRELKNOB_ROW_FREE_RX));
    printf("%s%s\n", number ? "   " : "", number ? petrelknob_meaning(number) : "");
}

int main(void)
{
    static uint8_t tx[REGION_LENGTH], rx[REGION_LENGTH], buffer[16];
    static uint8_t rows[(1 + MOST_RECORDS) * PETRELKNOB_ROW_BYTES];

    build();
    size_t written = petrelknob_script(script, script_length, tx, sizeof tx, rx, sizeof rx, buffer, sizeof buffer, rows, sizeof rows);

    printf("%-28s %6s   %-13s  %-21s %s\n", "record", "number", "given", "values", "free blocks, tx rx");
    for (size_t i = 0; i < label_count && (i + 1) * PETRELKNOB_ROW_BYTES <= written; i++)
        print_row(labels[i], rows + i * PETRELKNOB_ROW_BYTES);
    return written == label_count * PETRELKNOB_ROW_BYTES ? 0 : 1;
}
