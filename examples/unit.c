/* A panel and the unit of a ladder truck, two processes as two cores would be, talk plain ICMsg: each region is all ring, and a
 * packet holds the message itself. Each side opens with the regions as it sees them, starts its ring and waits for the other's start
 * packet; then the panel asks and the unit answers. The bytes are seen in the order in which they are written because this is x86-64:
 * docs/SHARED-MEMORY.md. */
#include "two_processes.h"

#include <string.h>

/* The two regions touch. A short buffer takes the start packet, and every answer but one. */
enum { TO_UNIT = 0x20070000, TO_PANEL = 0x20070400, REGION_LENGTH = 1024, ALIGNMENT = 32, SHORT_LENGTH = 16 };

/* Where one side transmits, the other receives. */
static const struct petrelknob_plain_numbers panel_numbers = {
    TO_UNIT, TO_UNIT + REGION_LENGTH, TO_PANEL, TO_PANEL + REGION_LENGTH, ALIGNMENT};
static const struct petrelknob_plain_numbers unit_numbers = {
    TO_PANEL, TO_PANEL + REGION_LENGTH, TO_UNIT, TO_UNIT + REGION_LENGTH, ALIGNMENT};

/* One side of the link, with its own indexes. */
struct side {
    const char *name;
    struct petrelknob_plain plain;
};

/* Opens the side, starts its ring and waits for the partner's start packet. Memory that nobody cleared may hold anything until then:
 * each try begins at read index 0, where the start packet will be. */
static struct side meet(const char *name, const struct petrelknob_plain_numbers *numbers, uint8_t *says, uint8_t *hears)
{
    struct side side = {.name = name};
    uint8_t content[SHORT_LENGTH];
    size_t length;
    expect_accepted(name, "open", petrelknob_plain_open(&side.plain, numbers, says, REGION_LENGTH, hears, REGION_LENGTH));
    expect_accepted(name, "start", petrelknob_plain_start(&side.plain));
    for (int tries = 0; again(&tries);) {
        struct side tried = side;
        if (petrelknob_plain_receive(&tried.plain, content, sizeof content, &length) == PETRELKNOB_ACCEPTED &&
            petrelknob_is_start(content, length))
            return tried;
    }
    printf("%s: the partner has not started its ring\n", name);
    exit(1);
}

/* What is pushed is printed first, so that the other side's lines follow. */
static void say(struct side *side, const char *text)
{
    printf("%s pushes   \"%s\" at write index %u\n", side->name, text, (unsigned)side->plain.write_index);
    fflush(stdout);
    expect_accepted(side->name, "push", petrelknob_plain_push(&side->plain, text, strlen(text)));
}

/* Waits for the next packet, with a short buffer. A longer content stays on the ring until a buffer is lent that takes any. */
static const char *hear(struct side *side, char text[REGION_LENGTH])
{
    uint32_t at = side->plain.read_index;
    uint32_t number = PETRELKNOB_EMPTY;
    size_t length = 0;
    for (int tries = 0; number == PETRELKNOB_EMPTY && again(&tries);)
        number = petrelknob_plain_receive(&side->plain, text, SHORT_LENGTH, &length);
    if (number == PETRELKNOB_SHORT_BUFFER) {
        uint32_t largest = petrelknob_largest_content(side->plain.rx_data_length);
        printf("%s lends %d bytes: number %u, %s\n", side->name, SHORT_LENGTH, (unsigned)number, petrelknob_meaning(number));
        printf("%s lends %u bytes\n", side->name, (unsigned)largest);
        number = petrelknob_plain_receive(&side->plain, text, largest, &length);
    }
    expect_accepted(side->name, "receive", number);
    text[length] = '\0';
    printf("%s receives \"%s\" at read index %u\n", side->name, text, (unsigned)at);
    fflush(stdout);
    return text;
}

static const struct {
    const char *question, *answer;
} talk[] = {
    {"angle?", "61 degrees"},
    {"load?", "185 kg"},
    {"log?", "06:12 jacks down, 06:13 ladder at 61 degrees, 06:15 basket loaded with 185 kg"},
    {"bye", "bye"},
};
enum { ROUNDS = sizeof talk / sizeof talk[0] };

static const char *answer_to(const char *question)
{
    for (int i = 0; i < ROUNDS; i++)
        if (strcmp(talk[i].question, question) == 0)
            return talk[i].answer;
    return "what?";
}

static void unit(uint8_t *says, uint8_t *hears)
{
    struct side side = meet("  unit", &unit_numbers, says, hears);
    char text[REGION_LENGTH];
    do {
        say(&side, answer_to(hear(&side, text)));
    } while (strcmp(text, "bye") != 0);
}

static void panel(uint8_t *says, uint8_t *hears)
{
    struct side side = meet("panel ", &panel_numbers, says, hears);
    char text[REGION_LENGTH];
    printf("panel  has received the unit's start packet: write index %u, read index %u\n", (unsigned)side.plain.write_index,
           (unsigned)side.plain.read_index);
    for (int i = 0; i < ROUNDS; i++) {
        say(&side, talk[i].question);
        hear(&side, text);
    }
}

/* Openings that are refused. A unit that is refused answers every call with that number. */
static int refusals(uint8_t *says, uint8_t *hears)
{
    struct petrelknob_plain plain;
    struct petrelknob_plain_numbers numbers = panel_numbers;
    int lent = told("a byte too few is lent", petrelknob_plain_open(&plain, &numbers, says, REGION_LENGTH, hears,
                                                                    REGION_LENGTH - 1)) == PETRELKNOB_WRONG_REGION;
    numbers.tx_end = numbers.tx_begin + ALIGNMENT;
    int small = told("a region of 32 bytes", petrelknob_plain_open(&plain, &numbers, says, ALIGNMENT, hears, REGION_LENGTH)) ==
                PETRELKNOB_TOO_SMALL;
    numbers.tx_end = numbers.rx_begin + 1;
    int overlap = told("a region that ends a byte later", petrelknob_plain_open(&plain, &numbers, says, REGION_LENGTH + 1, hears,
                                                                                REGION_LENGTH)) == PETRELKNOB_OVERLAP;
    int stays = told("a push all the same", petrelknob_plain_push(&plain, "angle?", 6)) == PETRELKNOB_OVERLAP;
    return lent && small && overlap && stays ? 0 : 1;
}

static void show(const char *name, const struct petrelknob_plain_numbers *numbers)
{
    uint32_t data_length = petrelknob_unit_data_length(numbers->tx_begin, numbers->tx_end, numbers->alignment);
    printf("%s transmits in 0x%08X to 0x%08X, contents of at most %u bytes, and receives in 0x%08X to 0x%08X\n", name,
           (unsigned)numbers->tx_begin, (unsigned)numbers->tx_end, (unsigned)petrelknob_largest_content(data_length),
           (unsigned)numbers->rx_begin, (unsigned)numbers->rx_end);
}

int main(void)
{
    uint8_t *to_unit_memory = share(REGION_LENGTH), *to_panel_memory = share(REGION_LENGTH);
    puts("UNITS. A panel and the unit of a ladder truck talk plain ICMsg: each region is all ring\n");
    show("panel ", &panel_numbers);
    show("  unit", &unit_numbers);
    run_both(panel, to_unit_memory, unit, to_panel_memory);
    return refusals(to_unit_memory, to_panel_memory);
}
