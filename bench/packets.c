/* Two processes, as two cores would, one pushing and one pulling in place as fast as they can, with nothing between them but the region.
 * Every packet is compared with what was pushed. docs/SHARED-MEMORY.md says why that is sound on x86-64, and where it is not. */
#define _DEFAULT_SOURCE
#include <petrelknob.h>
#include <sched.h>
#include <stdio.h>
#include <stdlib.h>
#include <string.h>
#include <sys/mman.h>
#include <sys/wait.h>
#include <unistd.h>

enum { LENGTH = 2048, PACKETS = 4000000, LONGEST = 119, PATIENCE_SECONDS = 60 };

static const struct petrelknob_region region = {0x20070000, 0x20070000 + LENGTH, 16, 32, 32};

/* The packets: both sides make the same ones, each from its own seed. */
static size_t next_packet(uint32_t *seed, uint8_t *content)
{
    *seed = *seed * 1664525 + 1013904223;
    size_t length = (*seed >> 8) % (LONGEST + 1);
    for (size_t i = 0; i < length; i++)
        content[i] = (uint8_t)((*seed >> 24) + i);
    return length;
}

static void fail(const char *what, uint32_t number)
{
    fprintf(stderr, "%s: number %u, %s\n", what, (unsigned)number, petrelknob_meaning(number));
    exit(1);
}

static void push_all(struct petrelknob_direction *direction)
{
    uint8_t content[LONGEST];
    uint32_t seed = 1, number;
    for (uint32_t i = 0; i < PACKETS; i++) {
        size_t length = next_packet(&seed, content);
        while ((number = petrelknob_direction_push(direction, content, length)) == PETRELKNOB_FULL)
            sched_yield();
        if (number != PETRELKNOB_ACCEPTED)
            fail("push", number);
    }
}

static void pull_all(struct petrelknob_direction *direction)
{
    uint8_t content[LONGEST], buffer[LONGEST];
    uint32_t seed = 1, number;
    size_t length;
    for (uint32_t i = 0; i < PACKETS; i++) {
        size_t expected = next_packet(&seed, content);
        while ((number = petrelknob_direction_pull(direction, buffer, sizeof buffer, &length)) == PETRELKNOB_EMPTY)
            sched_yield();
        if (number != PETRELKNOB_ACCEPTED)
            fail("pull", number);
        if (length != expected || memcmp(buffer, content, length) != 0) {
            fprintf(stderr, "packet %u is not what was pushed\n", (unsigned)i);
            exit(1);
        }
    }
}

int main(void)
{
    struct petrelknob_direction direction;
    void *memory = mmap(NULL, LENGTH, PROT_READ | PROT_WRITE, MAP_SHARED | MAP_ANONYMOUS, -1, 0);
    if (memory == MAP_FAILED) {
        perror("mmap");
        return 1;
    }
    uint32_t number = petrelknob_direction_open(&direction, &region, memory, LENGTH);
    if (number != PETRELKNOB_ACCEPTED)
        fail("open", number);
    pid_t child = fork();
    if (child < 0) {
        perror("fork");
        return 1;
    }
    alarm(PATIENCE_SECONDS); /* a partner that ended would be waited for without end */
    if (child == 0) {
        push_all(&direction);
        return 0;
    }
    pull_all(&direction);
    int status;
    if (waitpid(child, &status, 0) != child || status != 0)
        return 1;
    printf("%d packets of 0 to %d bytes from process to process: none was wrong\n", PACKETS, LONGEST);
    return 0;
}
