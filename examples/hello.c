/* The ring in a few lines: both sides of one direction, in one process. */
#include <petrelknob.h>
#include <stdio.h>

static const struct petrelknob_region region = {
    .begin = 0x20070000, .end = 0x20070800, .local_blocks = 16, .remote_blocks = 32, .alignment = 32};

static int refused(uint32_t number)
{
    if (number != PETRELKNOB_ACCEPTED)
        printf("number %u: %s\n", (unsigned)number, petrelknob_meaning(number));
    return number != PETRELKNOB_ACCEPTED;
}

int main(void)
{
    static uint8_t memory[2048];             /* on a chip: where this side sees the region */
    struct petrelknob_direction says, hears; /* the side that transmits in it, and the side that receives */
    uint8_t buffer[1024];
    size_t length;

    if (refused(petrelknob_direction_open(&says, &region, memory, sizeof memory)) ||
        refused(petrelknob_direction_open(&hears, &region, memory, sizeof memory)) ||
        refused(petrelknob_direction_start(&says)) ||
        refused(petrelknob_direction_push(&says, "pressure?", 9)))
        return 1;

    /* Whatever has come: the start packet, and behind it what was pushed. An empty ring is 8, and ends the loop. */
    while (petrelknob_direction_pull(&hears, buffer, sizeof buffer, &length) == PETRELKNOB_ACCEPTED)
        if (!petrelknob_is_start(buffer, length))
            printf("%.*s\n", (int)length, (const char *)buffer);
    return 0;
}
