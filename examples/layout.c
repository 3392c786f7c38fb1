/* Prints where ring and blocks lie in the two regions of the public specification's example. */
#include <petrelknob.h>
#include <stdio.h>

enum { ALIGNMENT = 32, BYTES_PER_MARK = 32 };

static void line(uint32_t address, const char *what, uint32_t length)
{
    printf("  0x%08X  %-28s %5u bytes\n", (unsigned)address, what, (unsigned)length);
}

/* One mark for each 32 bytes of the region: the ring's indexes, its data, then the blocks by turns. */
static void draw(uint32_t begin, uint32_t end, const uint32_t *layout)
{
    uint32_t data_begin = layout[PETRELKNOB_BEGIN] + ALIGNMENT + 4;
    uint32_t blocks_begin = layout[PETRELKNOB_BLOCKS_BEGIN];
    uint32_t at;

    printf("  [");
    for (at = begin; at < end; at += BYTES_PER_MARK) {
        if (at >= layout[PETRELKNOB_END])
            putchar(' ');
        else if (at >= blocks_begin)
            putchar((at - blocks_begin) / layout[PETRELKNOB_BLOCK_SIZE] % 2 ? '=' : '#');
        else
            putchar(at < data_begin ? 'i' : '~');
    }
    printf("]  i indexes, ~ ring data, # and = blocks by turns\n\n");
}

static int show(const char *name, uint32_t begin, uint32_t end, uint32_t local_blocks, uint32_t remote_blocks)
{
    uint32_t layout[PETRELKNOB_LAYOUT_VALUES];
    uint32_t number = petrelknob_layout(begin, end, local_blocks, remote_blocks, ALIGNMENT, layout, PETRELKNOB_LAYOUT_VALUES);
    char blocks[32];

    printf("%s, 0x%08X to 0x%08X, %u blocks, alignment %d\n", name, (unsigned)begin, (unsigned)end, (unsigned)local_blocks, ALIGNMENT);
    if (number != PETRELKNOB_ACCEPTED) {
        printf("  refused, number %u: %s\n", (unsigned)number, petrelknob_meaning(number));
        return 1;
    }
    snprintf(blocks, sizeof blocks, "%u blocks of %u", (unsigned)local_blocks, (unsigned)layout[PETRELKNOB_BLOCK_SIZE]);
    line(layout[PETRELKNOB_BEGIN], "read index, padded", ALIGNMENT);
    line(layout[PETRELKNOB_BEGIN] + ALIGNMENT, "write index", 4);
    line(layout[PETRELKNOB_BEGIN] + ALIGNMENT + 4, "ring data", layout[PETRELKNOB_DATA_LENGTH]);
    line(layout[PETRELKNOB_BLOCKS_BEGIN], blocks, layout[PETRELKNOB_END] - layout[PETRELKNOB_BLOCKS_BEGIN]);
    printf("  0x%08X  end\n", (unsigned)layout[PETRELKNOB_END]);
    printf("  a packet has at most %u bytes of content\n", (unsigned)petrelknob_largest_content(layout[PETRELKNOB_DATA_LENGTH]));
    draw(begin, end, layout);
    return 0;
}

int main(void)
{
    puts("LAYOUT. Where the ring and the blocks of each region lie\n");
    return show("tx-region", 0x20070000, 0x20070800, 16, 32) | show("rx-region", 0x20078000, 0x20078800, 32, 16);
}
