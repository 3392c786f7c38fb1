/* Two sheets of a pump box shown as one tree: what was set by hand against a gauge, and what comes in from the panel. Each value is
 * asked for by its path, so that it is the proved code that says which of the two counts. */
#include "told.h"

#include <petrelknob_sheet.h>
#include <string.h>

enum { HEX_BYTES = 24, NAME_WIDTH = 24, VALUE_WIDTH = 16 };

/* Tag and length, then the value; numbers are little-endian. */
static const uint8_t hand_bytes[] =
    "\x03\x0D" "test gauge 17"
    "\x80\x06"
        "\x81\x04"
            "\x11\x02\x87\x28";

static const uint8_t incoming_bytes[] =
    "\x01\x05" "box 4"
    "\x80\x1A"
        "\x01\x05" "P-220"
        "\x81\x08"
            "\x10\x02\x0C\x00"
            "\x11\x02\x10\x27"
        "\x82\x07"
            "\x11\x02\x7A\x26"
            "\x12\x01\x05"
    "\x83\x08"
        "\x13\x02\x60\x09"
        "\x3A\x02\x05\xFF";

struct sheet {
    const uint8_t *bytes;
    size_t length;
};
static const struct sheet hand_set = {hand_bytes, sizeof hand_bytes - 1}; /* without the zero that ends a string */
static const struct sheet incoming = {incoming_bytes, sizeof incoming_bytes - 1};

#define PATH(...) (const uint8_t[]){__VA_ARGS__}, sizeof(uint8_t[]){__VA_ARGS__}

static uint32_t pick(struct sheet hand, struct sheet other, const uint8_t *path, size_t path_length, struct petrelknob_part *part)
{
    return petrelknob_pick_part(hand.bytes, hand.length, other.bytes, other.length, path, path_length, part);
}

/* What this program knows of tags. A sheet may have others. */
static const struct meaning {
    uint8_t tag;
    const char *name;
    const char *unit; /* of a number; null for a text or a group */
    int decimals;
} meanings[] = {
    {0x01, "name", NULL, 0},
    {0x03, "set against", NULL, 0},
    {0x10, "offset", " bar", 2},
    {0x11, "scale", "", 4},
    {0x12, "smoothing", " s", 1},
    {0x13, "holds", " l", 0},
    {0x80, "pump", NULL, 0},
    {0x81, "pressure gauge", NULL, 0},
    {0x82, "flow meter", NULL, 0},
    {0x83, "tank", NULL, 0},
};

static const struct meaning *meaning_of(uint8_t tag)
{
    for (size_t i = 0; i < sizeof meanings / sizeof meanings[0]; i++)
        if (meanings[i].tag == tag)
            return &meanings[i];
    return NULL;
}

/* These print, and give how many characters they have printed. */

static int print_hex(const uint8_t *bytes, size_t length)
{
    int printed = 0;
    for (size_t i = 0; i < length; i++)
        printed += printf("%s%02X", i ? " " : "", bytes[i]);
    return printed;
}

static int print_number(const struct meaning *meaning, const struct petrelknob_part *part)
{
    double value = 0;
    for (size_t i = part->length; i > 0; i--)
        value = value * 256 + part->bytes[i - 1];
    for (int i = 0; i < meaning->decimals; i++)
        value /= 10;
    return printf("%.*f%s", meaning->decimals, value, meaning->unit);
}

static int print_value(const struct meaning *meaning, const struct petrelknob_part *part)
{
    if (!meaning)
        return print_hex(part->bytes, part->length);
    if (meaning->unit)
        return print_number(meaning, part);
    return printf("%.*s", (int)part->length, (const char *)part->bytes);
}

static const char *origin(const struct petrelknob_part *part)
{
    return part->sheet == PETRELKNOB_HAND_SET ? "set by hand" : "incoming";
}

static void show_sheet(const char *name, struct sheet sheet)
{
    printf("%s, %u bytes\n", name, (unsigned)sheet.length);
    for (size_t at = 0; at < sheet.length; at += HEX_BYTES) {
        printf("  ");
        print_hex(sheet.bytes + at, sheet.length - at < HEX_BYTES ? sheet.length - at : HEX_BYTES);
        printf("\n");
    }
}

static void show_field(uint8_t tag, int indent, const struct petrelknob_part *part)
{
    const struct meaning *meaning = meaning_of(tag);
    const char *name = meaning ? meaning->name : "";
    if (tag >= PETRELKNOB_FIRST_GROUP) {
        printf("%*s0x%02X %s\n", indent, "", tag, name);
        return;
    }
    printf("%*s0x%02X %-*s", indent, "", tag, NAME_WIDTH - indent, name);
    int printed = print_value(meaning, part);
    printf("%*s%s\n", printed < VALUE_WIDTH ? VALUE_WIDTH - printed : 1, "", origin(part));
}

/* Shows what the two sheets have in the group that the first `depth` tags of the path lead to: each tag is asked for. A group in a list
 * of depth 4 is never found, so that the path has room for every list. */
static void show_list(uint8_t path[PETRELKNOB_PATH_TAGS], int depth)
{
    for (int tag = 0; tag <= 0xFF; tag++) {
        struct petrelknob_part part;
        path[depth] = (uint8_t)tag;
        if (pick(hand_set, incoming, path, (size_t)depth + 1, &part) != PETRELKNOB_ACCEPTED)
            continue;
        show_field(path[depth], 2 + 2 * depth, &part);
        if (tag >= PETRELKNOB_FIRST_GROUP)
            show_list(path, depth + 1);
    }
}

/* The pressure gauge's scale is set by hand, its offset comes in. As a whole it is the hand-set sheet's, which has no offset. */
static int never_merged(void)
{
    struct petrelknob_part scale, offset, whole;
    uint32_t numbers = pick(hand_set, incoming, PATH(0x80, 0x81, 0x11), &scale) |
                       pick(hand_set, incoming, PATH(0x80, 0x81, 0x10), &offset) |
                       pick(hand_set, incoming, PATH(0x80, 0x81), &whole);
    printf("groups are never merged: 0x80 0x81 as a whole is ");
    print_hex(whole.bytes, whole.length);
    printf(", %s\n\n", origin(&whole));
    return numbers == PETRELKNOB_ACCEPTED && scale.sheet == PETRELKNOB_HAND_SET && offset.sheet == PETRELKNOB_INCOMING &&
           whole.sheet == PETRELKNOB_HAND_SET && whole.length == 4 && memcmp(whole.bytes, "\x11\x02\x87\x28", 4) == 0;
}

/* Whether a pick is refused by this number, and gives the empty part. */
static int refused(const char *what, uint32_t expected, struct sheet hand, struct sheet other, const uint8_t *path,
                   size_t path_length)
{
    struct petrelknob_part part;
    uint32_t number = told(what, pick(hand, other, path, path_length, &part));
    return number == expected && !part.bytes && part.length == 0 && part.sheet == 0;
}

/* The hand-set sheet has 0x03. A malformed sheet is refused all the same, be it the other one. */
static int refusals(void)
{
    struct sheet cut = {hand_set.bytes, hand_set.length - 1};
    struct sheet twice = {(const uint8_t *)"\x01\x00\x01\x00", 4};
    int path = refused("a path through 0x01", PETRELKNOB_BAD_PATH, hand_set, incoming, PATH(0x01, 0x10));
    int length = refused("a hand-set sheet with its last byte cut off", PETRELKNOB_BAD_HAND_SHEET, cut, incoming, PATH(0x03));
    int tags = refused("an incoming sheet that has 0x01 twice", PETRELKNOB_BAD_INCOMING_SHEET, hand_set, twice, PATH(0x03));
    int neither = refused("a path to 0x80 0x84", PETRELKNOB_NOT_FOUND, hand_set, incoming, PATH(0x80, 0x84));
    return path && length && tags && neither;
}

int main(void)
{
    uint8_t path[PETRELKNOB_PATH_TAGS];
    puts("SHEETS. What is set by hand wins over what comes in\n");
    show_sheet("hand-set sheet", hand_set);
    show_sheet("incoming sheet", incoming);
    puts("\nboth as one tree");
    show_list(path, 0);
    int apart = never_merged();
    return refusals() && apart ? 0 : 1;
}
