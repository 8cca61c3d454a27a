/* What the command says: answers on standard output, complaints and progress on standard error. */
#include <errno.h>
#include <stdarg.h>
#include <stdio.h>
#include <stdlib.h>
#include <string.h>

#include "command.h"

void say(const char *format, ...)
{
    va_list values;
    va_start(values, format);
    bool said = vprintf(format, values) >= 0 && fflush(stdout) == 0;
    va_end(values);
    if (!said) {
        complain("standard output", strerror(errno));
        exit(UNWRITTEN);
    }
}

/* What is not printable ASCII, and the backslash, becomes \xHH: no name can forge a line or move a terminal's cursor. */
const char *shown(const char *word)
{
    static char *text;
    free(text);
    text = malloc(4 * strlen(word) + 1);
    if (!text)
        return "(no room for this name)";
    char *end = text;
    for (; *word; word++) {
        unsigned char byte = (unsigned char)*word;
        if (byte < ' ' || byte > '~' || byte == '\\')
            end += sprintf(end, "\\x%02x", byte);
        else
            *end++ = *word;
    }
    *end = '\0';
    return text;
}

const char *refusal_name(uint8_t refusal)
{
    switch (refusal) {
    case HSD_FINE: return "FINE";
    case HSD_SHORT: return "SHORT";
    case HSD_NUMBER: return "NUMBER";
    case HSD_ORDER: return "ORDER";
    case HSD_LENGTH: return "LENGTH";
    case HSD_FIXED: return "FIXED";
    case HSD_PACKED: return "PACKED";
    case HSD_HEADER_SUM: return "HEADER SUM";
    case HSD_DATA_SUM: return "DATA SUM";
    case HSD_NAME: return "NAME";
    case HSD_CUT: return "CUT";
    case HSD_TAIL: return "TAIL";
    case HSD_SLATE: return "SLATE";
    case HSD_STRIP: return "STRIP";
    case HSD_OTHER_SHOT: return "OTHER SHOT";
    case HSD_ALREADY: return "ALREADY";
    case HSD_ROOM: return "ROOM";
    case HSD_REEL: return "REEL";
    case HSD_RUN: return "RUN";
    case HSD_SATELLITE_FIELD: return "satellite";
    case HSD_AREA_FIELD: return "area";
    case HSD_TIMELINE_FIELD: return "timeline";
    case HSD_SIZE_FIELD: return "columns or lines";
    case HSD_COMPRESSION_FIELD: return "compression flag";
    case HSD_BAND_FIELD: return "band";
    case HSD_BITS_FIELD: return "valid bits";
    case HSD_SEGMENT_FIELD: return "segment numbers or first line";
    case HSD_DAY_FIELD: return "day";
    default: return "UNKNOWN";
    }
}

/* Where a refusal has several fields, the offset tells which of them it is. */
static const char *fault_name(HsdAnswer answer)
{
    static const struct {
        uint8_t refusal;
        uint32_t offset;
        const char *name;
    } fields[] = {
        {HSD_SIZE_FIELD, 287, "columns"},
        {HSD_SIZE_FIELD, 289, "lines"},
        {HSD_SEGMENT_FIELD, 1007, "segment total"},
        {HSD_SEGMENT_FIELD, 1008, "segment number"},
        {HSD_SEGMENT_FIELD, 1009, "first line"},
    };
    for (size_t i = 0; i < sizeof fields / sizeof *fields; i++)
        if (fields[i].refusal == answer.refusal && fields[i].offset == answer.offset)
            return fields[i].name;
    return refusal_name(answer.refusal);
}

/* Block 0 is no block of a file: there is no byte to look at. */
const char *refusal_words(HsdAnswer answer)
{
    static char words[96];
    int length = snprintf(words, sizeof words, "refused %u %s, block %u", answer.refusal, fault_name(answer), answer.block);
    if (answer.block)
        snprintf(words + length, sizeof words - (size_t)length, ", byte %u", answer.offset);
    return words;
}

HsdAnswer refusal_of(const HsdFile *found)
{
    return (HsdAnswer){.refusal = found->refusal, .block = found->block, .offset = found->offset};
}

void say_refused(const char *name, HsdAnswer answer)
{
    say("%s: %s\n", shown(name), refusal_words(answer));
}

void complain(const char *about, const char *what)
{
    fprintf(stderr, "panulimbe: %s: %s\n", shown(about), what);
}

int misused(const char *subcommand, const char *needs)
{
    fprintf(stderr, "panulimbe %s: give %s; see 'panulimbe %s --help'\n", subcommand, needs, subcommand);
    return UNUSABLE;
}

/* One line that the next one is written over, and whatever else is said: at most a hundred times. */
void show_progress(const char *what, unsigned done, unsigned all)
{
    if (done < all && done * 100UL / all == (done - 1) * 100UL / all)
        return;
    fprintf(stderr, "%s %u of %u%c", what, done, all, done < all ? '\r' : '\n');
}
