/* panulimbe reading: what one count of a file reads as. */
#include <stdio.h>
#include <stdlib.h>

#include "command.h"

/* As few digits as tell the number from every other. */
static void say_radiance(double radiance)
{
    char digits[32];
    int precision = 0;
    do {
        precision++;
        snprintf(digits, sizeof digits, "%.*g", precision, radiance);
    } while (precision < 17 && strtod(digits, NULL) != radiance);
    say("radiance %s\n", digits);
}

static void say_reading(HsdReading reading)
{
    switch (reading.kind) {
    case HSD_RADIANCE: say_radiance(reading.radiance); break;
    case HSD_ERROR_PIXEL: say("error pixel\n"); break;
    case HSD_OUTSIDE: say("outside\n"); break;
    case HSD_OVER_RANGE: say("over range\n"); break;
    case HSD_UNCALIBRATED: say("uncalibrated\n"); break;
    default: say("unknown\n"); break;
    }
}

/* The count at a line and column of an accepted file, both from 1. */
static uint16_t count_at(HsdFile says, const uint8_t *bytes, unsigned line, unsigned column)
{
    size_t place = (size_t)(line - 1) * says.columns + (column - 1);
    const uint8_t *count = bytes + says.header_length + 2 * place;
    return (uint16_t)(says.order ? count[0] << 8 | count[1] : count[1] << 8 | count[0]);
}

static int read_one(const File *file, char **words)
{
    HsdFile says = hsd_accept(file->bytes, file->length);
    unsigned line, column;
    if (says.refusal) {
        say("%s\n", refusal_words(refusal_of(&says)));
        return REFUSED;
    }
    if (!parse_number(words[1], 1, says.lines, &line)) {
        complain(words[1], "not a line of this file");
        return UNUSABLE;
    }
    if (!parse_number(words[2], 1, says.columns, &column)) {
        complain(words[2], "not a column of this file");
        return UNUSABLE;
    }
    uint16_t count = count_at(says, file->bytes, line, column);
    say_reading(hsd_reading(says, count));
    return GOOD;
}

int reading(int count, char **words)
{
    File file;
    if (has_options(count, words) || count - optind != 3)
        return misused("reading", "a file, a line and a column");
    if (!spares_inputs(NULL, 1, words + optind))
        return UNUSABLE;
    if (!open_file(words[optind], &file))
        return UNUSABLE;
    int status = read_one(&file, words + optind);
    close_file(&file);
    return status;
}
