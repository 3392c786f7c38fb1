/* Two processes, as two cores would, talk through two regions of shared memory. Each starts its ring and waits for the other's start
 * packet; then the panel asks and the pump answers. Nothing but the regions is shared. The bytes are seen in the order in which they
 * are written because this is x86-64: docs/SHARED-MEMORY.md. */
#include "two_processes.h"

#include <string.h>

enum { ALIGNMENT = 32, REGION_LENGTH = 2048, BUFFER_LENGTH = 1024 };

/* The regions of the public specification's example: the panel transmits in the first and the pump in the second. */
static const struct petrelknob_region to_pump = {0x20070000, 0x20070000 + REGION_LENGTH, 16, 32, ALIGNMENT};
static const struct petrelknob_region to_panel = {0x20078000, 0x20078000 + REGION_LENGTH, 32, 16, ALIGNMENT};

/* One side of the link, with its own indexes. */
struct side {
    const char *name;
    struct petrelknob_direction says, hears;
};

/* The buffers here take any packet, so that none is cut. */
static void open_direction(const char *who, struct petrelknob_direction *direction, const struct petrelknob_region *region,
                           uint8_t *memory)
{
    expect_accepted(who, "open", petrelknob_direction_open(direction, region, memory, REGION_LENGTH));
    if (petrelknob_largest_content(direction->data_length) > BUFFER_LENGTH) {
        printf("%s: a packet may be longer than the buffer\n", who);
        exit(1);
    }
}

/* What is pushed is printed first, so that the other side's lines follow. */
static void say(struct side *side, const char *text)
{
    printf("%s pushes \"%s\" at write index %u\n", side->name, text, (unsigned)side->says.own_index);
    fflush(stdout);
    expect_accepted(side->name, "push", petrelknob_direction_push(&side->says, text, strlen(text)));
}

/* Waits for the next packet. */
static size_t hear(struct side *side, uint8_t *content)
{
    uint32_t at = side->hears.own_index;
    uint32_t number = PETRELKNOB_EMPTY;
    size_t length = 0;
    for (int tries = 0; number == PETRELKNOB_EMPTY && again(&tries);)
        number = petrelknob_direction_pull(&side->hears, content, BUFFER_LENGTH, &length);
    expect_accepted(side->name, "pull", number);
    printf("%s pulls  \"%.*s\" at read index %u\n", side->name, (int)length, (const char *)content, (unsigned)at);
    fflush(stdout);
    return length;
}

/* Starts this side's ring and waits for the partner's start packet. Memory that nobody cleared may hold anything until the partner
 * starts its ring: each try begins at read index 0, where its start packet will be. */
static void meet(struct side *side)
{
    uint8_t content[BUFFER_LENGTH];
    size_t length;
    expect_accepted(side->name, "start", petrelknob_direction_start(&side->says));
    for (int tries = 0; again(&tries);) {
        struct petrelknob_direction hears = side->hears;
        if (petrelknob_direction_pull(&hears, content, sizeof content, &length) == PETRELKNOB_ACCEPTED &&
            petrelknob_is_start(content, length)) {
            side->hears = hears;
            return;
        }
    }
    printf("%s: the partner has not started its ring\n", side->name);
    exit(1);
}

/* Opens both directions, and meets the partner. */
static struct side open_side(const char *name, const struct petrelknob_region *says, uint8_t *says_memory,
                             const struct petrelknob_region *hears, uint8_t *hears_memory)
{
    struct side side = {.name = name};
    open_direction(name, &side.says, says, says_memory);
    open_direction(name, &side.hears, hears, hears_memory);
    meet(&side);
    return side;
}

static const char *const questions[] = {"pressure?", "flow?", "calibration set by hand: 1.0375", "bye"};
static const char *const answers[] = {"7.2 bar", "1,240 l/min", "taken", "bye"};
enum { ROUNDS = sizeof questions / sizeof questions[0] };

static void pump(uint8_t *says, uint8_t *hears)
{
    struct side side = open_side("  pump", &to_panel, says, &to_pump, hears);
    uint8_t content[BUFFER_LENGTH];
    for (int i = 0; i < ROUNDS; i++) {
        size_t length = hear(&side, content);
        int known = length == strlen(questions[i]) && memcmp(content, questions[i], length) == 0;
        say(&side, known ? answers[i] : "what?");
    }
}

static void panel(uint8_t *says, uint8_t *hears)
{
    struct side side = open_side("panel ", &to_pump, says, &to_panel, hears);
    uint8_t content[BUFFER_LENGTH];
    printf("panel  has pulled the pump's start packet: write index %u, read index %u\n", (unsigned)side.says.own_index,
           (unsigned)side.hears.own_index);
    for (int i = 0; i < ROUNDS; i++) {
        say(&side, questions[i]);
        hear(&side, content);
    }
}

/* The longest content of an empty ring, and a partner that breaks the rules: refused by number. A broken packet is dropped, and what is
 * pushed next is pulled again. */
static int limits(uint8_t *memory)
{
    static const uint8_t zeros[REGION_LENGTH];
    struct petrelknob_direction says, hears;
    uint8_t content[BUFFER_LENGTH];
    size_t length;
    open_direction("limits", &says, &to_pump, memory);
    open_direction("limits", &hears, &to_pump, memory);
    expect_accepted("limits", "start", petrelknob_direction_start(&says));
    expect_accepted("limits", "pull", petrelknob_direction_pull(&hears, content, sizeof content, &length));

    uint32_t largest = petrelknob_largest_content(says.data_length);
    printf("the ring is empty, and takes a content of %u bytes\n", (unsigned)largest);
    int one_more = told("one byte more", petrelknob_direction_push(&says, zeros, largest + 1)) == PETRELKNOB_FULL;
    int as_many = told("as many", petrelknob_direction_push(&says, zeros, largest)) == PETRELKNOB_ACCEPTED;
    memset(memory + ALIGNMENT + 4 + hears.own_index, 0xFF, 2);
    int broken = told("its length 0xFFFF", petrelknob_direction_pull(&hears, content, sizeof content, &length)) ==
                 PETRELKNOB_BROKEN_PACKET;
    printf("dropped %u bytes, read index %u\n", (unsigned)hears.dropped, (unsigned)hears.own_index);
    expect_accepted("limits", "push", petrelknob_direction_push(&says, "flow?", 5));
    int goes_on = told("the next packet", petrelknob_direction_pull(&hears, content, sizeof content, &length)) ==
                      PETRELKNOB_ACCEPTED &&
                  length == 5;
    memset(memory + ALIGNMENT, 0xFF, 4);
    int bad_index = told("a write index of 0xFFFFFFFF", petrelknob_direction_pull(&hears, content, sizeof content, &length)) ==
                    PETRELKNOB_BAD_INDEX;
    return one_more && as_many && broken && goes_on && bad_index ? 0 : 1;
}

int main(void)
{
    uint8_t *to_pump_memory = share(REGION_LENGTH), *to_panel_memory = share(REGION_LENGTH);
    puts("RINGS. Two processes talk through the rings of these regions\n");
    run_both(panel, to_pump_memory, pump, to_panel_memory);
    return limits(to_pump_memory);
}
