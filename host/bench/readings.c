/* The reading of a segment's counts against the same tests inlined, in one run: `readings FILE..`, the ten segments of a disk. */
#include "bench.h"

/* Segment 5 lies across the disk: few of its counts are outside the scan, and nearly all are really read. */
enum { MIDDLE = 4 };

/* Sums, so that no loop can be left out; either way of reading must give the same. */
static volatile double seen;

static void read_proved(void *with)
{
    const Bench *b = with;
    HsdFile f = hsd_accept(b->files[MIDDLE], b->lengths[MIDDLE]);
    const uint16_t *counts = b->frame + b->starts[MIDDLE];
    size_t length = b->starts[MIDDLE + 1] - b->starts[MIDDLE];
    double sum = 0;
    for (size_t i = 0; i < length; i++)
        sum += hsd_reading(f, counts[i]).radiance;
    seen = sum;
}

static void read_inlined(void *with)
{
    const Bench *b = with;
    HsdFile f = hsd_accept(b->files[MIDDLE], b->lengths[MIDDLE]);
    const uint16_t *counts = b->frame + b->starts[MIDDLE];
    size_t length = b->starts[MIDDLE + 1] - b->starts[MIDDLE];
    double sum = 0;
    for (size_t i = 0; i < length; i++) {
        uint16_t count = counts[i];
        double radiance = f.gain * count + f.constant;
        if (count < 65534 && count < 1U << f.valid_bits && radiance - radiance == 0)
            sum += radiance;
    }
    seen = sum;
}

int main(int count, char **words)
{
    static Bench b;
    begin(&b, count - 1, words + 1);
    if (hsd_offer(b.slate, b.marks, HSD_MARKS, b.frame, b.size, b.files[MIDDLE], b.lengths[MIDDLE]).refusal)
        fail("a segment was refused");
    read_proved(&b);
    double proved = seen;
    read_inlined(&b);
    if (seen != proved || proved == 0)
        fail("the two ways of reading differ");
    compare("readings of a segment's counts, and inlined", read_proved, read_inlined, &b);
    return 0;
}
