/* panulimbe why: the first part in which each file is not of a slate. */
#include <inttypes.h>

#include "command.h"

/* Whether the words are right; the files are what is left of them. */
static bool parse_wish(int count, char **words, const char **slate)
{
    enum { SLATE = LONG_ONLY };
    static const struct option options[] = {{"slate", required_argument, NULL, SLATE}, {NULL, 0, NULL, 0}};
    int option;
    while ((option = next_option(count, words, ":", options)) != -1) {
        if (option != SLATE)
            return false;
        *slate = optarg;
    }
    return *slate && optind < count;
}

static const char *part_name(uint8_t part)
{
    switch (part) {
    case HSD_WHY_SATELLITE: return "satellite";
    case HSD_WHY_DAY: return "day";
    case HSD_WHY_TIMELINE: return "timeline";
    case HSD_WHY_BAND: return "band";
    case HSD_WHY_AREA: return "area";
    case HSD_WHY_COLUMNS: return "columns";
    case HSD_WHY_TOTAL: return "segment total";
    case HSD_WHY_LINES: return "lines";
    case HSD_WHY_FIRST_LINE: return "first line";
    default: return "unknown";
    }
}

/* Room for any value as it is said, and the end. */
enum { VALUE = 40 };

/* As the listing has it; but nobody picks a file by a day's number, so its date follows. */
static void put_value(uint8_t part, uint64_t value, char text[VALUE])
{
    switch (part) {
    case HSD_WHY_DAY: snprintf(text, VALUE, "%" PRIu64 " (%u)", value, date_of((uint32_t)value)); break;
    case HSD_WHY_TIMELINE: snprintf(text, VALUE, "%04" PRIu64, value); break;
    case HSD_WHY_AREA: put_letters((uint32_t)value, text); break;
    default: snprintf(text, VALUE, "%" PRIu64, value); break;
    }
}

static void say_difference(const char *name, const HsdWhy *why)
{
    char slate[VALUE], file[VALUE];
    put_value(why->part, why->slate, slate);
    put_value(why->part, why->file, file);
    say("%s: %s: slate %s, file %s\n", shown(name), part_name(why->part), slate, file);
}

/* A line bears its file's name, so that an unreadable file needs none. */
static int explain(const char *name, const File *file, void *with)
{
    const HsdSlate *slate = with;
    if (!file)
        return UNUSABLE;
    HsdWhy why = hsd_why(*slate, file->bytes, file->length);
    if (!why.refusal && why.part == HSD_WHY_AGREES) {
        say("%s: agrees\n", shown(name));
        return GOOD;
    }
    if (why.refusal)
        say_refused(name, (HsdAnswer){.refusal = why.refusal, .block = why.block, .offset = why.offset});
    else
        say_difference(name, &why);
    return REFUSED;
}

int why(int count, char **words)
{
    const char *text = NULL;
    HsdSlate slate;
    if (!parse_wish(count, words, &text))
        return misused("why", "a slate and at least one file");
    if (!spares_inputs(NULL, count - optind, words + optind) || !read_slate(text, &slate))
        return UNUSABLE;
    return each_file(count - optind, words + optind, false, explain, &slate);
}
