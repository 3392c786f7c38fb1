/* The proved pick and the plain C one side by side: nanoseconds for a call, by what the sheets hold, where the path leads to the last
 * leaf of the hand-set sheet and where neither sheet has it. The two sheets of a row have the same shape; all but the last are as long
 * as a sheet may be. Both make the same checks, and are compared before they are measured. */
#include "seconds.h"

#include "plain_sheet.h"
#include "side_by_side.h"

#include <petrelknob_sheet.h>
#include <string.h>

typedef uint32_t pick_call(const uint8_t *, size_t, const uint8_t *, size_t, const uint8_t *, size_t, uint32_t *, size_t);

/* plain_sheet.c with -O3: the Makefile gives its call this name. */
pick_call plain_pick_O3;

static pick_call *const picks[WAYS] = {[PLAIN] = plain_pick, [PLAIN_O3] = plain_pick_O3, [PROVED] = petrelknob_pick};

/* How many fields a list has, the leaves before the groups. They have the list's bytes in equal shares. */
struct fields {
    unsigned leaves, groups;
};

/* A list of each depth, the sheet's own first. All lists of one depth are alike. */
struct shape {
    const char *name;
    size_t length;
    uint32_t calls; /* of a round */
    struct fields lists[PETRELKNOB_SHEET_DEPTH + 1];
};

/* The most fields in a sheet's own list; the most in all of it; groups down to the deepest lists; the fewest fields; a sheet such as a
 * pump box has. */
static const struct shape shapes[] = {
    {"flat", PETRELKNOB_SHEET_BYTES, 200, {{128, 128}, {1, 0}}},
    {"small", PETRELKNOB_SHEET_BYTES, 40, {{0, 16}, {127, 0}}},
    {"four deep", PETRELKNOB_SHEET_BYTES, 40, {{0, 16}, {0, 4}, {0, 4}, {0, 3}, {1, 0}}},
    {"long", PETRELKNOB_SHEET_BYTES, 5000, {{16, 0}}},
    {"64 bytes", 64, 5000, {{1, 3}, {3, 0}}},
};

/* Two sheets and a path, and what a pick of them answers. */
struct scene {
    uint8_t hand[PETRELKNOB_SHEET_BYTES], incoming[PETRELKNOB_SHEET_BYTES];
    size_t hand_length, incoming_length;
    uint8_t path[PETRELKNOB_PATH_TAGS];
    size_t path_length;
    uint32_t number, answer[PETRELKNOB_PICK_VALUES];
    uint32_t calls;
};

/* Writes a list, and the path of its last leaf. Gives how many fields it has, with those of its groups. */
static unsigned write_list(uint8_t *list, size_t length, const struct fields *fields, uint8_t *path)
{
    unsigned here = fields->leaves + fields->groups, all = here;
    for (unsigned i = 0; i < here; i++) {
        size_t begin = length * i / here, end = length * (i + 1) / here;
        uint8_t tag = (uint8_t)(i < fields->leaves ? i : PETRELKNOB_FIRST_GROUP + i - fields->leaves);
        list[begin] = *path = tag;
        list[begin + 1] = (uint8_t)(end - begin - 2);
        if (tag >= PETRELKNOB_FIRST_GROUP)
            all += write_list(list + begin + 2, end - begin - 2, fields + 1, path + 1);
        else
            memset(list + begin + 2, tag, end - begin - 2);
    }
    return all;
}

static uint32_t pick(const struct scene *scene, int way, uint32_t *answer)
{
    return picks[way](scene->hand, scene->hand_length, scene->incoming, scene->incoming_length, scene->path, scene->path_length,
                      answer, PETRELKNOB_PICK_VALUES);
}

/* Asks plain C, and whether the others say the same. */
static void ask_all(struct scene *scene)
{
    scene->number = pick(scene, PLAIN, scene->answer);
    for (int way = PLAIN + 1; way < WAYS; way++) {
        uint32_t answer[PETRELKNOB_PICK_VALUES] = {1, 1, 1};
        expect(pick(scene, way, answer) == scene->number && memcmp(answer, scene->answer, sizeof answer) == 0,
               "a pick differs from plain C");
    }
}

/* Asks with one of the sheets cut before each byte, with each byte one more, and with its highest bit turned, which makes a leaf of a
 * group's tag and a group of a leaf's. */
static void ask_changed(struct scene *scene, uint8_t *sheet, size_t *length)
{
    size_t whole = *length;
    for (size_t i = 0; i < whole; i++) {
        uint8_t byte = sheet[i];
        *length = i;
        ask_all(scene);
        *length = whole;
        sheet[i] = (uint8_t)(byte + 1);
        ask_all(scene);
        sheet[i] = byte ^ PETRELKNOB_FIRST_GROUP;
        ask_all(scene);
        sheet[i] = byte;
    }
}

static double round_of(const void *measured, int way)
{
    const struct scene *scene = measured;
    uint32_t answer[PETRELKNOB_PICK_VALUES] = {0};
    double began = seconds();
    for (uint32_t i = 0; i < scene->calls; i++)
        expect(pick(scene, way, answer) == scene->number, "a pick gave another number");
    double took = seconds() - began;
    expect(memcmp(answer, scene->answer, sizeof answer) == 0, "a pick gave another part");
    return 1e9 * took / scene->calls;
}

/* Two sheets of this shape, and the path of their last leaf. Gives how many fields a sheet has. */
static unsigned make_scene(struct scene *scene, const struct shape *shape)
{
    unsigned fields = write_list(scene->hand, shape->length, shape->lists, scene->path);
    memcpy(scene->incoming, scene->hand, shape->length);
    scene->hand_length = scene->incoming_length = shape->length;
    scene->calls = shape->calls;
    scene->path_length = 1;
    while (scene->path[scene->path_length - 1] >= PETRELKNOB_FIRST_GROUP)
        scene->path_length++;
    return fields;
}

/* The part that is to be found ends where the hand-set sheet does. */
static void compare(struct scene *scene, const char *name, unsigned fields, const char *where, uint32_t number)
{
    char what[40];
    ask_all(scene);
    expect(scene->number == number, "a pick gave an unexpected number");
    expect(scene->answer[PETRELKNOB_PART_SHEET] == PETRELKNOB_HAND_SET &&
               scene->answer[PETRELKNOB_PART_BEGIN] + scene->answer[PETRELKNOB_PART_SIZE] ==
                   (number == PETRELKNOB_ACCEPTED ? scene->hand_length : 0),
           "a pick gave an unexpected part");
    snprintf(what, sizeof what, "%4u fields, %s, %s", fields, name, where);
    print_row(what, round_of, scene);
}

int main(void)
{
    static struct scene scene;
    print_head("nanoseconds for a pick");
    for (size_t i = 0; i < sizeof shapes / sizeof shapes[0]; i++) {
        unsigned fields = make_scene(&scene, &shapes[i]);
        ask_changed(&scene, scene.hand, &scene.hand_length);
        ask_changed(&scene, scene.incoming, &scene.incoming_length);
        compare(&scene, shapes[i].name, fields, "by hand", PETRELKNOB_ACCEPTED);
        scene.path[scene.path_length - 1] = 0xFF;
        compare(&scene, shapes[i].name, fields, "neither", PETRELKNOB_NOT_FOUND);
    }
    return 0;
}
