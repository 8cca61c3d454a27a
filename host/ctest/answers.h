/* The likeness of answers: a refusal shows its number, block and offset, and nothing else. */
#ifndef ANSWERS_H
#define ANSWERS_H

#include <stdbool.h>
#include <string.h>

#include "hsd.h"

static inline bool is(HsdAnswer answer, uint8_t refusal, uint8_t block, uint32_t offset)
{
    return answer.refusal == refusal && answer.block == block && answer.offset == offset;
}

static inline bool is_reel(HsdReel answer, uint8_t refusal, uint8_t block, uint32_t offset, size_t files)
{
    return answer.refusal == refusal && answer.block == block && answer.offset == offset && answer.files == files;
}

/* In every number; what stands behind the last one is none. */
static inline bool is_same_run(const HsdRun *one, const HsdRun *other)
{
    return memcmp(one, other, offsetof(HsdRun, refused) + sizeof one->refused) == 0;
}

static inline bool is_night(HsdNight answer, uint8_t refusal, uint8_t block, uint32_t offset, int64_t extra, const HsdRun *run)
{
    return answer.refusal == refusal && answer.block == block && answer.offset == offset && answer.extra == extra &&
           is_same_run(&answer.run, run);
}

/* In every member, heights beyond the last one too; there is padding between them. */
static inline bool is_same_slate(const HsdSlate *one, const HsdSlate *other)
{
    return memcmp(one, other, offsetof(HsdSlate, heights) + sizeof one->heights) == 0 && one->day == other->day &&
           one->area == other->area;
}

static inline bool is_same_why(HsdWhy one, HsdWhy other)
{
    return one.refusal == other.refusal && one.block == other.block && one.part == other.part && one.offset == other.offset &&
           one.slate == other.slate && one.file == other.file;
}

static inline bool is_zero(double number)
{
    static const double zero;
    return memcmp(&number, &zero, sizeof zero) == 0;
}

static inline bool says_only(HsdFile file, uint8_t refusal, uint8_t block, uint32_t offset)
{
    return file.refusal == refusal && file.block == block && file.offset == offset && file.satellite == 0 &&
           file.quality == 0 && file.day == 0 && file.timeline == 0 && file.band == 0 && file.area == 0 &&
           file.columns == 0 && file.lines == 0 && file.number == 0 && file.total == 0 && file.first_line == 0 &&
           file.valid_bits == 0 && file.order == 0 && file.header_length == 0 && is_zero(file.gain) && is_zero(file.constant);
}

#endif
