/* The files of the samples' folder. */
#ifndef SAMPLES_H
#define SAMPLES_H

#include <stdio.h>

#include "answers.h"
#include "test.h"

enum { ROOM = 2048 };

typedef struct Bytes {
    uint8_t bytes[ROOM];
    size_t length;
} Bytes;

static const char *folder;

static inline FILE *open_sample(const char *name)
{
    char path[4096];
    snprintf(path, sizeof path, "%s/%s", folder, name);
    FILE *from = fopen(path, "rb");
    CHECK(from != NULL);
    return from;
}

static inline Bytes sample(const char *name)
{
    Bytes file = {{0}, 0};
    FILE *from = open_sample(name);
    if (from) {
        file.length = fread(file.bytes, 1, ROOM, from);
        fclose(from);
    }
    return file;
}

/* A refused file, and what is answered of it. */
typedef struct Refused {
    char name[64];
    HsdAnswer answer;
} Refused;

enum { REFUSED_ROOM = 400 };

/* All of them: a line for each says its answer, those of one byte order first. How many there are. */
static inline size_t refused_samples(Refused all[REFUSED_ROOM])
{
    unsigned refusal, block, offset;
    size_t count = 0;
    FILE *from = open_sample("refused.lines");
    while (from && count < REFUSED_ROOM && fscanf(from, "NO %u %u %u\n", &refusal, &block, &offset) == 3)
        all[count++].answer = (HsdAnswer){(uint8_t)refusal, (uint8_t)block, offset};
    CHECK(from && feof(from) && count > 100);
    if (from)
        fclose(from);
    for (size_t i = 0; i < count; i++)
        snprintf(all[i].name, sizeof all->name, "refused-%zu-%03zu", i / (count / 2), i % (count / 2));
    return count;
}

#endif
