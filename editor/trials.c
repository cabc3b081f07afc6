/* Makes the call for each case on standard input and writes all that it leaves to standard output; second/entries.py writes the cases and reads
 * the outcomes. Memory that the call asks for is given dirty, and looked at when it is given back. Link with -Wl,--wrap=malloc,--wrap=free.
 *
 * A case is seven words (the length of the file, how many items allowed, numbers, places, work and fault have, and whether there is memory) and then
 * the bytes of the file. An outcome is five words (the answer; 1 if the work area is all 0; 1 if nothing was written beyond a buffer or to the file;
 * how many blocks were asked for and not given back; how many bytes of blocks that were given back were not 0), and then the items of allowed, numbers,
 * places and fault. All words have 32 bits, in the machine's own order. */

#include "tenvarog.h"

#include <stdbool.h>
#include <stdio.h>
#include <stdlib.h>
#include <string.h>

/* What the buffers hold before a call: bytes that are neither 0 nor 1, and words that are given to nothing. */
#define BYTE 7
#define NUMBER 7777777
#define PLACE 7777
#define FAULT 999
#define WORK 9

/* How many bytes stand behind each buffer to see what is written there; none with the argument `exact`, for a checker of memory. */
static size_t beyond = 64;
#define MARK 0xA5

void *__real_malloc(size_t bytes);
void __real_free(void *memory);
void *__wrap_malloc(size_t bytes);
void __wrap_free(void *memory);

/* Blocks that the call has, while it runs. */
#define MOST_BLOCKS 16
static struct {
    void *memory;
    size_t bytes;
} blocks[MOST_BLOCKS];
static bool in_call = false, has_memory = true;
static uint32_t blocks_left, dirty_bytes;

static void stop(const char *why)
{
    fprintf(stderr, "trials: %s\n", why);
    exit(1);
}

void *__wrap_malloc(size_t bytes)
{
    if (!in_call) {
        return __real_malloc(bytes);
    }
    if (!has_memory) {
        return NULL;
    }
    void *memory = __real_malloc(bytes);
    for (int at = 0; memory != NULL && at < MOST_BLOCKS; at++) {
        if (blocks[at].memory == NULL) {
            memset(memory, MARK, bytes);
            blocks[at].memory = memory;
            blocks[at].bytes = bytes;
            blocks_left++;
            return memory;
        }
    }
    in_call = false;
    stop("the call asked for too much memory");
    return NULL;
}

void __wrap_free(void *memory)
{
    for (int at = 0; in_call && memory != NULL && at < MOST_BLOCKS; at++) {
        if (blocks[at].memory == memory) {
            for (size_t byte = 0; byte < blocks[at].bytes; byte++) {
                dirty_bytes += ((unsigned char *)memory)[byte] != 0;
            }
            blocks[at].memory = NULL;
            blocks_left--;
        }
    }
    __real_free(memory);
}

/* Memory of so many bytes with marks behind it. */
static void *marked(size_t bytes)
{
    char *memory = malloc(bytes + beyond > 0 ? bytes + beyond : 1);
    if (memory == NULL) {
        stop("no memory");
    }
    memset(memory + bytes, MARK, beyond);
    return memory;
}

static bool is_marked(const void *memory, size_t bytes)
{
    const unsigned char *behind = (const unsigned char *)memory + bytes;
    for (size_t at = 0; at < beyond; at++) {
        if (behind[at] != MARK) {
            return false;
        }
    }
    return true;
}

static uint32_t *words(uint32_t length, uint32_t word)
{
    uint32_t *memory = marked(length * sizeof(uint32_t));
    for (uint32_t at = 0; at < length; at++) {
        memory[at] = word;
    }
    return memory;
}

static void read_whole(void *memory, size_t bytes)
{
    if (fread(memory, 1, bytes, stdin) != bytes) {
        stop("a case that is cut off");
    }
}

static void write_whole(const void *memory, size_t bytes)
{
    if (fwrite(memory, 1, bytes, stdout) != bytes) {
        stop("the output takes nothing");
    }
}

static void try_case(const uint32_t *lengths)
{
    uint32_t file_length = lengths[0], work_length = lengths[4];
    uint8_t *file = marked(file_length), *copy = marked(file_length), *allowed = marked(lengths[1]);
    read_whole(file, file_length);
    memcpy(copy, file, file_length);
    memset(allowed, BYTE, lengths[1]);
    uint32_t *numbers = words(lengths[2], NUMBER), *places = words(lengths[3], PLACE);
    uint32_t *work = words(work_length, WORK), *fault = words(lengths[5], FAULT);
    uint32_t outcome[5] = {0, 1, 1, 0, 0};

    blocks_left = dirty_bytes = 0;
    has_memory = lengths[6] != 0;
    in_call = true;
    outcome[0] = tenvarog_check(
        file, file_length, allowed, lengths[1], numbers, lengths[2], places, lengths[3], work, work_length, fault, lengths[5]);
    in_call = false;

    for (uint32_t at = 0; at < work_length; at++) {
        outcome[1] &= work[at] == 0;
    }
    outcome[2] = memcmp(file, copy, file_length) == 0 && is_marked(file, file_length) && is_marked(allowed, lengths[1]) &&
        is_marked(numbers, 4 * (size_t)lengths[2]) && is_marked(places, 4 * (size_t)lengths[3]) &&
        is_marked(work, 4 * (size_t)work_length) && is_marked(fault, 4 * (size_t)lengths[5]);
    outcome[3] = blocks_left;
    outcome[4] = dirty_bytes;

    write_whole(outcome, sizeof outcome);
    write_whole(allowed, lengths[1]);
    write_whole(numbers, 4 * (size_t)lengths[2]);
    write_whole(places, 4 * (size_t)lengths[3]);
    write_whole(fault, 4 * (size_t)lengths[5]);
    fflush(stdout);
    free(file);
    free(copy);
    free(allowed);
    free(numbers);
    free(places);
    free(work);
    free(fault);
}

int main(int count, char **arguments)
{
    uint32_t lengths[7];
    size_t got;
    if (count == 2 && strcmp(arguments[1], "exact") == 0) {
        beyond = 0;
    }
    while ((got = fread(lengths, 1, sizeof lengths, stdin)) == sizeof lengths) {
        try_case(lengths);
    }
    if (got != 0) {
        stop("a case that is cut off");
    }
    return 0;
}
