/* Good files by document 01: what a check looks at is as it says, and all other bytes are any. */
#ifndef GOOD_H
#define GOOD_H

#include <stddef.h>
#include <stdint.h>
#include <string.h>

#include "any.h"

enum {
    COUNTS = 12, /* the block that refusals have for the counts */
    COLUMNS = 4,
    LINES = 2,
    TOTAL = 2,
    DATA = 2 * COLUMNS * LINES,
    GREATEST_HEADER = 394563,
    SPARE = 256 /* bytes behind the file, for one with a tail */
};

/* The byte order, and how many entries blocks 8, 9 and 10 have. */
typedef struct Plan {
    uint8_t order;
    uint32_t entries[3];
} Plan;

typedef struct File {
    Plan plan;
    size_t length;
    uint8_t bytes[GREATEST_HEADER + DATA + SPARE];
} File;

/* Some bytes of a block: a number, or else letters. */
typedef struct Value {
    uint8_t block, size;
    uint16_t place;
    uint32_t number;
    const char *letters;
} Value;

static inline size_t least_length(unsigned block)
{
    static const size_t lengths[] = {282, 50, 127, 139, 147, 259, 47, 61, 45, 47, 259};
    return lengths[block - 1];
}

static inline size_t block_length(const Plan *plan, unsigned block)
{
    static const size_t widths[] = {10, 10, 4};
    return least_length(block) + (block >= 8 && block <= 10 ? widths[block - 8] * plan->entries[block - 8] : 0);
}

/* Where a block starts; for COUNTS, where the counts do. */
static inline size_t start(const Plan *plan, unsigned block)
{
    size_t at = 0;
    for (unsigned before = 1; before < block; before++)
        at += block_length(plan, before);
    return at;
}

static inline Value length_of(unsigned block, size_t length)
{
    return (Value){.block = (uint8_t)block, .size = block == 10 ? 4 : 2, .place = 1, .number = (uint32_t)length};
}

/* The number of entries of blocks 8 to 10. */
static inline Value entries_of(unsigned block, uint32_t entries)
{
    static const uint16_t places[] = {19, 3, 5};
    return (Value){.block = (uint8_t)block, .size = 2, .place = places[block - 8], .number = entries};
}

static inline void put_value(File *file, Value value)
{
    uint8_t *to = file->bytes + start(&file->plan, value.block) + value.place;
    if (value.letters)
        memcpy(to, value.letters, value.size);
    for (size_t i = 0; i < value.size && !value.letters; i++)
        to[file->plan.order ? value.size - 1U - i : i] = (uint8_t)(value.number >> 8 * i);
}

static inline void put_block(File *file, unsigned block)
{
    file->bytes[start(&file->plan, block)] = (uint8_t)block;
    put_value(file, length_of(block, block_length(&file->plan, block)));
    if (block >= 8 && block <= 10)
        put_value(file, entries_of(block, file->plan.entries[block - 8]));
}

/* Two bytes at a place of the file, in its byte order. */
static inline void put_two(File *file, size_t at, unsigned number)
{
    file->bytes[at + file->plan.order] = (uint8_t)number;
    file->bytes[at + !file->plan.order] = (uint8_t)(number >> 8);
}

static inline void put_counts(File *file, const uint16_t *counts, size_t length)
{
    const size_t at = start(&file->plan, COUNTS);
    for (size_t i = 0; i < length; i++)
        put_two(file, at + 2 * i, counts[i]);
}

/* Columns and lines, and with them the file's length. */
static inline void put_size(File *file, uint32_t columns, uint32_t lines)
{
    put_value(file, (Value){2, 2, 5, columns, NULL});
    put_value(file, (Value){2, 2, 7, lines, NULL});
    put_value(file, (Value){1, 4, 74, 2 * columns * lines, NULL});
    file->length = start(&file->plan, COUNTS) + 2 * (size_t)columns * lines;
}

/* Which segment it is and where it begins: in block 7, and its number and the total in the name. */
static inline void put_segment(File *file, unsigned number, unsigned total, unsigned first_line)
{
    const char digits[] = {(char)('0' + number / 10), (char)('0' + number % 10), (char)('0' + total / 10),
                           (char)('0' + total % 10)};
    put_value(file, (Value){7, 1, 3, total, NULL});
    put_value(file, (Value){7, 1, 4, number, NULL});
    put_value(file, (Value){7, 2, 5, first_line, NULL});
    put_value(file, (Value){1, sizeof digits, 149, 0, digits});
}

/* Segment 1 of 2 of the full disk in band 13 on 2015-07-07 at 02:00. */
static inline void make_good(File *file, Plan plan)
{
    static const char name[128] = "HS_H08_20150707_0200_B13_FLDK_R20_S0102.DAT";
    static const char satellite[16] = "Himawari-8";
    const Value values[] = {
        {1, 2, 3, 11, NULL},      {1, 1, 5, plan.order, NULL}, {1, 16, 6, 0, satellite}, {1, 4, 38, 0, "FLDK"},
        {1, 2, 44, 200, NULL},    {1, 4, 74, DATA, NULL},      {1, 128, 114, 0, name},   {2, 2, 3, 16, NULL},
        {2, 2, 5, COLUMNS, NULL}, {2, 2, 7, LINES, NULL},      {2, 1, 9, 0, NULL},       {5, 2, 3, 13, NULL},
        {5, 2, 13, 12, NULL},     {5, 2, 15, 65535, NULL},     {5, 2, 17, 65534, NULL},  {7, 1, 3, TOTAL, NULL},
        {7, 1, 4, 1, NULL},       {7, 2, 5, 1, NULL},
    };
    file->plan = plan;
    file->length = start(&plan, COUNTS) + DATA;
    for (size_t i = 0; i < file->length + SPARE; i++)
        file->bytes[i] = (uint8_t)any();
    for (unsigned block = 1; block < COUNTS; block++)
        put_block(file, block);
    for (size_t i = 0; i < sizeof values / sizeof *values; i++)
        put_value(file, values[i]);
    put_value(file, (Value){1, 4, 70, (uint32_t)start(&plan, COUNTS), NULL});
}

#endif
