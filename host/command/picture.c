/* A frame as a 16-bit PGM picture. */
#include "command.h"

/* Counts above the greatest that the band can have (error pixels, outside the scan, over range) are shown as black. */
static void show_line(const uint16_t *counts, size_t columns, uint16_t greatest, uint8_t *bytes)
{
    for (size_t i = 0; i < columns; i++) {
        uint16_t count = counts[i] <= greatest ? counts[i] : 0;
        bytes[2 * i] = (uint8_t)(count >> 8);
        bytes[2 * i + 1] = (uint8_t)count;
    }
}

static bool write_lines(FILE *to, const void *what, bool progress)
{
    static uint16_t counts[WIDEST];
    static uint8_t bytes[2 * WIDEST];
    const Picture *picture = what;
    const Frame *frame = picture->frame;
    HsdSlate slate = frame->slate;
    size_t columns = slate.columns;
    unsigned height = frame_lines(&slate);
    uint16_t greatest = (uint16_t)((1U << hsd_valid_bits(slate.band)) - 1);
    fprintf(to, "P5\n%zu %u\n%u\n", columns, height, greatest);
    for (unsigned line = 1; line <= height; line++) {
        if (hsd_line(slate, frame->marks, HSD_MARKS, frame->counts, frame->length, picture->leader, columns,
                     (uint16_t)line, counts, columns) != columns)
            return false;
        show_line(counts, columns, greatest, bytes);
        if (fwrite(bytes, 2, columns, to) != columns)
            return false;
        if (progress)
            show_progress("line", line, height);
    }
    return true;
}

bool write_picture(const char *name, Picture picture, bool progress)
{
    return write_output(&(Output){.name = name, .fill = write_lines, .what = &picture, .progress = progress});
}
