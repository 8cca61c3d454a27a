/* Adding a segment to a run, against memcpy of its counts and against two plain ways of reading them one by one, in one run: `night FILE..`, segments of
   5,500 x 550 counts in either byte order. */
#include <math.h>
#include <string.h>

#include "bench.h"

enum { COUNTS = 5500 * 550, BYTES = 2 * COUNTS, KINDS = 5 };

/* A segment, what of its header a reading needs, and room for a copy of its counts. */
typedef struct Segment {
    uint8_t *file;
    const uint8_t *counts;
    size_t length;
    unsigned order;
    uint16_t bits;
    double gain, constant;
    uint8_t *copy;
} Segment;

/* What the last way found, so that no way can be left out; each must find the same. */
static uint64_t seen[KINDS];

static uint64_t number_at(const uint8_t *bytes, unsigned order, size_t width)
{
    uint64_t number = 0;
    for (size_t i = 0; i < width; i++)
        number = number << 8 | bytes[order ? i : width - 1 - i];
    return number;
}

static double double_at(const uint8_t *bytes, unsigned order)
{
    uint64_t bits = number_at(bytes, order, 8);
    double number;
    memcpy(&number, &bits, sizeof number);
    return number;
}

/* Block 5 begins at byte 598; the counts are the file's last bytes. */
static Segment segment_of(const char *name)
{
    Segment s = {.copy = malloc(BYTES)};
    s.file = load(name, &s.length);
    if (!s.copy || s.length < BYTES)
        fail("give a segment of 5,500 x 550 counts");
    s.counts = s.file + s.length - BYTES;
    s.order = s.file[5];
    s.bits = (uint16_t)number_at(s.file + 598 + 13, s.order, 2);
    s.gain = double_at(s.file + 598 + 19, s.order);
    s.constant = double_at(s.file + 598 + 27, s.order);
    return s;
}

static uint16_t count_at(const Segment *s, size_t place)
{
    const uint8_t *count = s->counts + 2 * place;
    return (uint16_t)(s->order ? count[0] << 8 | count[1] : count[1] << 8 | count[0]);
}

static void add(void *with)
{
    const Segment *s = with;
    HsdNight night = hsd_night_add((HsdRun){0}, s->file, s->length);
    const HsdRun *run = &night.run;
    const uint64_t totals[KINDS] = {run->radiance, run->error, run->outside, run->over, run->uncalibrated};
    if (night.refusal)
        fail("a segment was refused");
    memcpy(seen, totals, sizeof seen);
}

static void copy(void *with)
{
    const Segment *s = with;
    memcpy(s->copy, s->counts, BYTES);
}

static void read_floats(void *with)
{
    const Segment *s = with;
    uint64_t totals[KINDS] = {0};
    for (size_t i = 0; i < COUNTS; i++) {
        uint16_t count = count_at(s, i);
        if (count >= 65534)
            totals[count == 65535 ? HSD_ERROR_PIXEL : HSD_OUTSIDE]++;
        else if (count >= 1U << s->bits)
            totals[HSD_OVER_RANGE]++;
        else
            totals[isfinite(s->gain * count + s->constant) ? HSD_RADIANCE : HSD_UNCALIBRATED]++;
    }
    memcpy(seen, totals, sizeof seen);
}

static void read_each(void *with)
{
    const Segment *s = with;
    uint64_t totals[KINDS] = {0};
    for (size_t i = 0; i < COUNTS; i++)
        totals[hsd_read_count(s->gain, s->constant, s->bits, count_at(s, i)).kind]++;
    memcpy(seen, totals, sizeof seen);
}

/* The same five totals by both ways, and then their times. */
static void compare_counting(const char *what, void (*plain)(void *), Segment *s)
{
    uint64_t added[KINDS];
    add(s);
    memcpy(added, seen, sizeof seen);
    plain(s);
    if (memcmp(added, seen, sizeof seen) != 0 || added[HSD_RADIANCE] == 0)
        fail("the two ways of counting differ");
    compare(what, add, plain, s);
}

static void time_segment(const char *name)
{
    Segment s = segment_of(name);
    const char *order = s.order ? "big" : "little";
    char what[64];
    snprintf(what, sizeof what, "a %s-endian segment in a run, and memcpy", order);
    compare(what, add, copy, &s);
    snprintf(what, sizeof what, "a %s-endian segment in a run, and plain floats", order);
    compare_counting(what, read_floats, &s);
    snprintf(what, sizeof what, "a %s-endian segment in a run, and hsd_read_count", order);
    compare_counting(what, read_each, &s);
    free(s.file);
    free(s.copy);
}

int main(int count, char **words)
{
    if (count < 2)
        fail("give segments");
    for (int i = 1; i < count; i++)
        time_segment(words[i]);
    printf("HsdRun has %zu bytes, HsdNight %zu\n", sizeof(HsdRun), sizeof(HsdNight));
    return 0;
}
