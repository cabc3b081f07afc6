/* Judges network files.
 *
 *   example FILE ..                        with buffers for the largest network
 *   example -s CHANNELS PLACES FILE ..     with buffers for a network of that size
 *
 * For each file a line with its name and `free`, `blocked` or `refused`, number, line and field; and after a verdict a line for each
 * channel: its number or a dash, and its place in the blocked load or a dash. */

#include "tenvarog.h"

#include <stdio.h>
#include <stdlib.h>
#include <string.h>

typedef struct {
    uint8_t *bytes;
    size_t length;
} File;

typedef struct {
    size_t pairs;
    size_t channels;
    uint8_t *allowed;
    uint32_t *numbers;
    uint32_t *places;
    uint32_t *work;
} Buffers;

/* Memory of so many bytes, at least one, since no pointer may be null. */
static void *room(size_t bytes)
{
    void *memory = malloc(bytes > 0 ? bytes : 1);
    if (memory == NULL) {
        fputs("example: no memory\n", stderr);
        exit(1);
    }
    return memory;
}

static File read_file(const char *name)
{
    File file = {NULL, 0};
    size_t capacity = 4096;
    FILE *stream = fopen(name, "rb");
    if (stream == NULL) {
        perror(name);
        exit(1);
    }
    file.bytes = room(capacity);
    for (;;) {
        file.length += fread(file.bytes + file.length, 1, capacity - file.length, stream);
        if (file.length < capacity) {
            break;
        }
        uint8_t *longer = room(2 * capacity);
        memcpy(longer, file.bytes, capacity);
        free(file.bytes);
        file.bytes = longer;
        capacity *= 2;
    }
    if (ferror(stream)) {
        perror(name);
        exit(1);
    }
    fclose(stream);
    return file;
}

static Buffers buffers_for(size_t channels, size_t places)
{
    Buffers b;
    b.pairs = channels * places;
    b.channels = channels;
    b.allowed = room(b.pairs);
    b.numbers = room(channels * sizeof(uint32_t));
    b.places = room(channels * sizeof(uint32_t));
    b.work = room(b.pairs * sizeof(uint32_t));
    return b;
}

static void free_buffers(Buffers b)
{
    free(b.allowed);
    free(b.numbers);
    free(b.places);
    free(b.work);
}

/* How many channels an accepted file says that there are. */
static size_t channels_of(File file)
{
    size_t channels = 0;
    for (size_t at = 2; file.bytes[at] != '\t'; at++) {
        channels = 10 * channels + (size_t)(file.bytes[at] - '0');
    }
    return channels;
}

/* Reads a number from 0 to `most`. */
static int read_number(const char *word, size_t most, size_t *number)
{
    *number = 0;
    for (; *word >= '0' && *word <= '9' && *number <= most; word++) {
        *number = 10 * *number + (size_t)(*word - '0');
    }
    return *word == '\0' && *number <= most;
}

static void print_mark(uint32_t word)
{
    if (word == TENVAROG_NONE) {
        printf("\t-");
    } else {
        printf("\t%lu", (unsigned long)word);
    }
}

static void judge(const char *name, Buffers b)
{
    File file = read_file(name);
    uint32_t fault[2] = {0, 0};
    uint32_t answer = tenvarog_check(
        file.bytes, file.length, b.allowed, b.pairs, b.numbers, b.channels, b.places, b.channels, b.work, b.pairs, fault, 2);
    if (answer > TENVAROG_BLOCKED) {
        printf("%s\trefused\t%lu\t%lu\t%lu\n", name, (unsigned long)answer, (unsigned long)fault[0], (unsigned long)fault[1]);
    } else {
        size_t channels = channels_of(file);
        printf("%s\t%s\n", name, answer == TENVAROG_FREE ? "free" : "blocked");
        for (size_t channel = 0; channel < channels; channel++) {
            printf("c\t%lu", (unsigned long)channel);
            print_mark(b.numbers[channel]);
            print_mark(b.places[channel]);
            putchar('\n');
        }
    }
    free(file.bytes);
}

int main(int count, char **words)
{
    size_t channels = TENVAROG_MOST_CHANNELS, places = TENVAROG_MOST_PLACES;
    int first = 1, in_order = 1;
    if (count > 3 && strcmp(words[1], "-s") == 0) {
        in_order = read_number(words[2], TENVAROG_MOST_CHANNELS, &channels) && read_number(words[3], TENVAROG_MOST_PLACES, &places);
        first = 4;
    }
    if (first >= count || !in_order) {
        fprintf(stderr, "usage: example [-s CHANNELS PLACES] FILE ..\n");
        return 1;
    }
    Buffers b = buffers_for(channels, places);
    for (int at = first; at < count; at++) {
        judge(words[at], b);
    }
    free_buffers(b);
    return 0;
}
