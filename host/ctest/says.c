/* What the command prints of the user's own words, and of refusals. */
#include <string.h>

#include "../command/command.h"
#include "test.h"

static bool shows(const char *word, const char *expected)
{
    return strcmp(shown(word), expected) == 0;
}

static void check_shown(void)
{
    CHECK(shows("", ""));
    CHECK(shows("HS_H08 ~!", "HS_H08 ~!"));
    CHECK(shows("\\", "\\x5c"));
    CHECK(shows("a\nb\r\t", "a\\x0ab\\x0d\\x09"));
    CHECK(shows("\033[2J\177\377", "\\x1b[2J\\x7f\\xff"));
    for (int byte = 1; byte < 256; byte++) {
        const char word[] = {(char)byte, '\0'};
        char expected[8];
        bool is_plain = byte >= 32 && byte <= 126 && byte != '\\';
        snprintf(expected, sizeof expected, is_plain ? "%c" : "\\x%02x", byte);
        CHECK(shows(word, expected));
    }
}

/* As hsd.h has them; a number that it does not have is told as such. */
static void check_refusals(void)
{
    CHECK(strcmp(refusal_name(HSD_FINE), "FINE") == 0);
    CHECK(strcmp(refusal_name(HSD_SHORT), "SHORT") == 0);
    CHECK(strcmp(refusal_name(HSD_NUMBER), "NUMBER") == 0);
    CHECK(strcmp(refusal_name(HSD_ORDER), "ORDER") == 0);
    CHECK(strcmp(refusal_name(HSD_LENGTH), "LENGTH") == 0);
    CHECK(strcmp(refusal_name(HSD_FIXED), "FIXED") == 0);
    CHECK(strcmp(refusal_name(HSD_PACKED), "PACKED") == 0);
    CHECK(strcmp(refusal_name(HSD_HEADER_SUM), "HEADER SUM") == 0);
    CHECK(strcmp(refusal_name(HSD_DATA_SUM), "DATA SUM") == 0);
    CHECK(strcmp(refusal_name(HSD_NAME), "NAME") == 0);
    CHECK(strcmp(refusal_name(HSD_CUT), "CUT") == 0);
    CHECK(strcmp(refusal_name(HSD_TAIL), "TAIL") == 0);
    CHECK(strcmp(refusal_name(HSD_SLATE), "SLATE") == 0);
    CHECK(strcmp(refusal_name(HSD_STRIP), "STRIP") == 0);
    CHECK(strcmp(refusal_name(HSD_OTHER_SHOT), "OTHER SHOT") == 0);
    CHECK(strcmp(refusal_name(HSD_ALREADY), "ALREADY") == 0);
    CHECK(strcmp(refusal_name(HSD_ROOM), "ROOM") == 0);
    CHECK(strcmp(refusal_name(HSD_REEL), "REEL") == 0);
    CHECK(strcmp(refusal_name(HSD_RUN), "RUN") == 0);
    CHECK(strcmp(refusal_name(HSD_SATELLITE_FIELD), "satellite") == 0);
    CHECK(strcmp(refusal_name(HSD_AREA_FIELD), "area") == 0);
    CHECK(strcmp(refusal_name(HSD_TIMELINE_FIELD), "timeline") == 0);
    CHECK(strcmp(refusal_name(HSD_SIZE_FIELD), "columns or lines") == 0);
    CHECK(strcmp(refusal_name(HSD_COMPRESSION_FIELD), "compression flag") == 0);
    CHECK(strcmp(refusal_name(HSD_BAND_FIELD), "band") == 0);
    CHECK(strcmp(refusal_name(HSD_BITS_FIELD), "valid bits") == 0);
    CHECK(strcmp(refusal_name(HSD_SEGMENT_FIELD), "segment numbers or first line") == 0);
    CHECK(strcmp(refusal_name(HSD_DAY_FIELD), "day") == 0);
    for (unsigned refusal = 0; refusal < 256; refusal++)
        if (refusal == 7 || (refusal > HSD_RUN && refusal < HSD_SATELLITE_FIELD) || refusal > HSD_DAY_FIELD)
            CHECK(strcmp(refusal_name((uint8_t)refusal), "UNKNOWN") == 0);
}

static bool words_are(uint8_t refusal, uint8_t block, uint32_t offset, const char *expected)
{
    return strcmp(refusal_words((HsdAnswer){.refusal = refusal, .block = block, .offset = offset}), expected) == 0;
}

/* The field, and the byte where there is a block to look at. */
static void check_words(void)
{
    CHECK(words_are(HSD_SHORT, 1, 0, "refused 1 SHORT, block 1, byte 0"));
    CHECK(words_are(HSD_SHORT, 3, 332, "refused 1 SHORT, block 3, byte 332"));
    CHECK(words_are(HSD_FIXED, 5, 615, "refused 5 FIXED, block 5, byte 615"));
    CHECK(words_are(HSD_PACKED, 2, 291, "refused 6 PACKED, block 2, byte 291"));
    CHECK(words_are(HSD_TAIL, 12, 394563, "refused 12 TAIL, block 12, byte 394563"));
    CHECK(words_are(HSD_OTHER_SHOT, 0, 0, "refused 15 OTHER SHOT, block 0"));
    CHECK(words_are(HSD_RUN, 0, 0, "refused 19 RUN, block 0"));
    CHECK(words_are(HSD_SATELLITE_FIELD, 1, 6, "refused 31 satellite, block 1, byte 6"));
    CHECK(words_are(HSD_AREA_FIELD, 1, 38, "refused 32 area, block 1, byte 38"));
    CHECK(words_are(HSD_TIMELINE_FIELD, 1, 44, "refused 33 timeline, block 1, byte 44"));
    CHECK(words_are(HSD_COMPRESSION_FIELD, 2, 291, "refused 35 compression flag, block 2, byte 291"));
    CHECK(words_are(HSD_BAND_FIELD, 5, 601, "refused 36 band, block 5, byte 601"));
    CHECK(words_are(HSD_BITS_FIELD, 5, 611, "refused 37 valid bits, block 5, byte 611"));
    CHECK(words_are(HSD_DAY_FIELD, 0, 0, "refused 39 day, block 0"));
}

/* Of the two refusals that have several fields, the one at this byte; all, where the byte is none of theirs. */
static void check_fields(void)
{
    CHECK(words_are(HSD_SIZE_FIELD, 2, 287, "refused 34 columns, block 2, byte 287"));
    CHECK(words_are(HSD_SIZE_FIELD, 2, 289, "refused 34 lines, block 2, byte 289"));
    CHECK(words_are(HSD_SIZE_FIELD, 2, 1007, "refused 34 columns or lines, block 2, byte 1007"));
    CHECK(words_are(HSD_SEGMENT_FIELD, 7, 1007, "refused 38 segment total, block 7, byte 1007"));
    CHECK(words_are(HSD_SEGMENT_FIELD, 7, 1008, "refused 38 segment number, block 7, byte 1008"));
    CHECK(words_are(HSD_SEGMENT_FIELD, 7, 1009, "refused 38 first line, block 7, byte 1009"));
    CHECK(words_are(HSD_SEGMENT_FIELD, 7, 287, "refused 38 segment numbers or first line, block 7, byte 287"));
    CHECK(words_are(HSD_CUT, 12, 1007, "refused 11 CUT, block 12, byte 1007"));
    /* the longest that there can be */
    CHECK(words_are(HSD_SEGMENT_FIELD, 255, 4294967295,
                    "refused 38 segment numbers or first line, block 255, byte 4294967295"));
}

static void check_refusal_of(void)
{
    HsdFile found = {.refusal = 38, .block = 7, .offset = 1009, .satellite = 8};
    HsdAnswer answer = refusal_of(&found);
    CHECK(answer.refusal == 38 && answer.block == 7 && answer.offset == 1009);
}

int main(void)
{
    check_shown();
    check_refusals();
    check_words();
    check_fields();
    check_refusal_of();
    return checked("says");
}
