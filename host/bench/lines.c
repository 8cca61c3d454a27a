/* Every line of a whole frame by hsd_line, against memcpy of the same lines, in one run: `lines WHAT FILE..`, the ten segments of a disk, even or not. */
#include <string.h>

#include "bench.h"

static uint16_t out[COLUMNS];

static const uint16_t *line_of(const Bench *b, unsigned line)
{
    return b->frame + (size_t)(line - 1) * COLUMNS;
}

static unsigned lines_of(const Bench *b)
{
    return (unsigned)(b->size / COLUMNS);
}

static void ask_line(const Bench *b, unsigned line)
{
    static const uint16_t leader[COLUMNS];
    if (hsd_line(b->slate, b->marks, HSD_MARKS, b->frame, b->size, leader, COLUMNS, (uint16_t)line, out, COLUMNS) != COLUMNS)
        fail("a line is empty");
}

static void ask_all(void *with)
{
    for (unsigned line = 1; line <= lines_of(with); line++)
        ask_line(with, line);
}

static void copy_all(void *with)
{
    for (unsigned line = 1; line <= lines_of(with); line++)
        memcpy(out, line_of(with, line), sizeof out);
}

/* What is timed are lines of the frame, not of the leader. */
static void check_all(const Bench *b)
{
    for (unsigned line = 1; line <= lines_of(b); line++) {
        ask_line(b, line);
        if (memcmp(out, line_of(b, line), sizeof out) != 0)
            fail("a line is not the frame's");
    }
}

int main(int count, char **words)
{
    static Bench b;
    if (count < 2)
        fail("say whose lines they are");
    begin(&b, count - 2, words + 2);
    offer_all(&b);
    check_all(&b);
    compare(words[1], ask_all, copy_all, &b);
    return 0;
}
