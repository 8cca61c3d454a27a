/* The slate in one word, as H08,20150707,0200,13,FLDK,5500,10,550 or, in uneven segments, H08,20150707,0200,13,FLDK,5500,4,900+1850+1850+900. What it may
   hold is the library's to say. */
#include <string.h>

#include "command.h"

/* What is left of the word, and whether all was well so far. */
typedef struct Rest {
    const char *at;
    bool good;
} Rest;

/* A number of so many digits, then a comma, a plus sign or the end. */
static unsigned number(Rest *rest, size_t least, size_t most, unsigned greatest)
{
    unsigned value = 0;
    size_t digits = strspn(rest->at, "0123456789");
    for (size_t i = 0; i < digits && i < most; i++)
        value = 10 * value + (unsigned)(rest->at[i] - '0');
    rest->good = rest->good && least <= digits && digits <= most && value <= greatest;
    rest->at += digits;
    return value;
}

static void comma(Rest *rest)
{
    rest->good = rest->good && *rest->at == ',';
    rest->at += *rest->at != '\0';
}

/* Whether a plus sign stands here, which is then passed. */
static bool plus(Rest *rest)
{
    bool stands = *rest->at == '+';
    rest->at += stands;
    return stands;
}

/* From a segment on: so a height that no other follows is that of them all. */
static void put_height(HsdSlate *slate, unsigned from, uint16_t height)
{
    for (unsigned k = from; k < HSD_MARKS; k++)
        slate->heights[k] = height;
}

/* One for all segments, or one for each. A slate with more of them than there is room for is refused by its total. */
static void heights(Rest *rest, HsdSlate *slate)
{
    unsigned count = 0;
    do
        put_height(slate, count++, (uint16_t)number(rest, 1, 5, 65535));
    while (plus(rest));
    rest->good = rest->good && (count == 1 || count == slate->total);
}

static uint32_t letters(Rest *rest)
{
    uint32_t value = 0;
    size_t length = strcspn(rest->at, ",");
    for (size_t i = 0; i < length; i++)
        value = value << 8 | (uint8_t)rest->at[i];
    rest->good = rest->good && length == 4;
    rest->at += length;
    return value;
}

/* The day of a date, or 0 if it is not a real one of 2000 to 2099. */
static uint32_t day_of(unsigned date)
{
    return hsd_day((uint16_t)(date / 10000), (uint8_t)(date / 100 % 100), (uint8_t)(date % 100));
}

static bool parse_slate(const char *text, HsdSlate *slate)
{
    Rest rest = {text, text[0] == 'H'};
    rest.at += rest.good;
    slate->satellite = (uint8_t)number(&rest, 2, 2, 99);
    comma(&rest);
    slate->day = day_of(number(&rest, 8, 8, 99999999));
    comma(&rest);
    slate->timeline = (uint16_t)number(&rest, 4, 4, 9999);
    comma(&rest);
    slate->band = (uint16_t)number(&rest, 1, 2, 99);
    comma(&rest);
    slate->area = letters(&rest);
    comma(&rest);
    slate->columns = (uint16_t)number(&rest, 1, 5, 65535);
    comma(&rest);
    slate->total = (uint8_t)number(&rest, 1, 3, 255);
    comma(&rest);
    heights(&rest, slate);
    return rest.good && *rest.at == '\0';
}

/* What is wrong with a slate, or NULL. Asked to open a frame of no counts, the library still looks at the slate first. */
static const char *slate_fault(const char *text, HsdSlate *slate)
{
    uint8_t marks[HSD_MARKS];
    uint16_t no_counts[1];
    if (!parse_slate(text, slate))
        return "not a slate, as H08,20150707,0200,13,FLDK,5500,10,550 or H08,20150707,0200,13,FLDK,5500,4,900+1850+1850+900";
    if (slate->day == 0)
        return "not a real date of 2000 to 2099";
    if (hsd_open(*slate, marks, HSD_MARKS, no_counts, 0).refusal == HSD_SLATE)
        return "refused 13 SLATE, block 0";
    return NULL;
}

bool read_slate(const char *text, HsdSlate *slate)
{
    const char *fault = slate_fault(text, slate);
    if (fault)
        complain(text, fault);
    return !fault;
}

unsigned frame_lines(const HsdSlate *slate)
{
    unsigned lines = 0;
    for (unsigned k = 0; k < slate->total; k++)
        lines += slate->heights[k];
    return lines;
}

static bool is_reached(unsigned date, uint32_t day)
{
    uint32_t its_day = day_of(date);
    return its_day != 0 && its_day <= day;
}

/* On by years, by months and by days: the library alone knows which dates there are. */
unsigned date_of(uint32_t day)
{
    unsigned date = 20000101;
    for (unsigned step = 10000; step > 0; step /= 100)
        while (is_reached(date + step, day))
            date += step;
    return date;
}

void put_letters(uint32_t area, char letters[LETTERS])
{
    for (int i = 0; i < LETTERS - 1; i++)
        letters[i] = (char)(area >> (24 - 8 * i) & 255);
    letters[LETTERS - 1] = '\0';
}
