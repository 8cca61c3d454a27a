/* What the benchmarks share: a disk's ten segments in memory, and the least times of two ways that take turns. */
#ifndef BENCH_H
#define BENCH_H

#include <stdio.h>
#include <stdlib.h>
#include <string.h>
#include <time.h>

#include "hsd.h"

enum { FILES = 10, COLUMNS = 5500, ROUNDS = 15 };

typedef struct Bench {
    HsdSlate slate;
    uint8_t *files[FILES];
    size_t lengths[FILES];
    size_t starts[FILES + 1]; /* of the segments in the frame, in counts, and its end */
    uint8_t marks[HSD_MARKS];
    uint16_t *frame;
    size_t size;
} Bench;

static inline void fail(const char *what)
{
    fprintf(stderr, "bench: %s\n", what);
    exit(1);
}

static inline uint8_t *load(const char *name, size_t *length)
{
    FILE *from = fopen(name, "rb");
    size_t room = 12000000;
    uint8_t *bytes = malloc(room);
    if (!from || !bytes)
        fail(name);
    *length = fread(bytes, 1, room, from);
    fclose(from);
    return bytes;
}

/* A segment as high as its file is long: no header is as long as a line. */
static inline void add_segment(Bench *b, int i, const char *name)
{
    b->files[i] = load(name, &b->lengths[i]);
    b->slate.heights[i] = (uint16_t)(b->lengths[i] / (2 * COLUMNS));
    b->starts[i + 1] = b->starts[i] + (size_t)b->slate.heights[i] * COLUMNS;
}

/* The segments of the disk that host/bench/run makes, and an opened frame for them. */
static inline void begin(Bench *b, int count, char **names)
{
    if (count != FILES)
        fail("give ten segments");
    *b = (Bench){.slate = {.satellite = 8, .total = FILES, .timeline = 200, .band = 13, .columns = COLUMNS, .day = 57210,
                           .area = HSD_AREA('F', 'L', 'D', 'K')}};
    for (int i = 0; i < FILES; i++)
        add_segment(b, i, names[i]);
    b->size = b->starts[FILES];
    b->frame = malloc(2 * b->size);
    if (!b->frame || hsd_open(b->slate, b->marks, HSD_MARKS, b->frame, b->size).refusal)
        fail("no frame");
}

/* All of them to a record with no segment in. */
static inline void offer_all(void *with)
{
    Bench *b = with;
    memset(b->marks, 0, HSD_MARKS);
    for (int i = 0; i < FILES; i++)
        if (hsd_offer(b->slate, b->marks, HSD_MARKS, b->frame, b->size, b->files[i], b->lengths[i]).refusal)
            fail("a segment was refused");
}

static inline double now(void)
{
    struct timespec t;
    clock_gettime(CLOCK_MONOTONIC, &t);
    return (double)t.tv_sec + (double)t.tv_nsec * 1e-9;
}

static inline double seconds(void (*run)(void *), void *with)
{
    double began = now();
    run(with);
    return now() - began;
}

/* The least times of rounds that take turns: others use the machine too, and they only ever add time. */
static inline void compare(const char *what, void (*proved)(void *), void (*plain)(void *), void *with)
{
    double least = 1e9, least_plain = 1e9;
    for (int round = 0; round < ROUNDS; round++) {
        double took = seconds(proved, with), took_plain = seconds(plain, with);
        least = took < least ? took : least;
        least_plain = took_plain < least_plain ? took_plain : least_plain;
    }
    printf("%-52s %8.2f ms %8.2f ms  ratio %.2f\n", what, least * 1e3, least_plain * 1e3, least / least_plain);
}

#endif
