/* The structs of hsd.h as x86-64 lays them out, worked out by hand, and its numbers: the library is made without hsd.h, so nothing else compares them. */
#include <stdio.h>

#include "hsd.h"

#define AT(type, member, place, size)                                                                                  \
    _Static_assert(offsetof(type, member) == (place) && sizeof((type *)0)->member == (size), #type "." #member)

#define WHOLE(type, size, alignment)                                                                                   \
    _Static_assert(sizeof(type) == (size) && _Alignof(type) == (alignment), #type)

AT(HsdFile, refusal, 0, 1);
AT(HsdFile, block, 1, 1);
AT(HsdFile, satellite, 2, 1);
AT(HsdFile, quality, 3, 1);
AT(HsdFile, offset, 4, 4);
AT(HsdFile, day, 8, 4);
AT(HsdFile, timeline, 12, 2);
AT(HsdFile, band, 14, 2);
AT(HsdFile, area, 16, 4);
AT(HsdFile, columns, 20, 2);
AT(HsdFile, lines, 22, 2);
AT(HsdFile, number, 24, 1);
AT(HsdFile, total, 25, 1);
AT(HsdFile, first_line, 26, 2);
AT(HsdFile, valid_bits, 28, 2);
AT(HsdFile, order, 30, 1);
AT(HsdFile, header_length, 32, 4);
AT(HsdFile, gain, 40, 8);
AT(HsdFile, constant, 48, 8);
WHOLE(HsdFile, 56, 8);

AT(HsdReading, radiance, 0, 8);
AT(HsdReading, kind, 8, 1);
WHOLE(HsdReading, 16, 8);

AT(HsdQuality, invalid, 0, 1);
AT(HsdQuality, sun, 1, 1);
AT(HsdQuality, moon, 2, 1);
AT(HsdQuality, test, 3, 1);
AT(HsdQuality, manoeuvre, 4, 1);
AT(HsdQuality, unloading, 5, 1);
AT(HsdQuality, solar_calibration, 6, 1);
AT(HsdQuality, eclipse, 7, 1);
WHOLE(HsdQuality, 8, 1);

AT(HsdFrameNumber, refusal, 0, 1);
AT(HsdFrameNumber, block, 1, 1);
AT(HsdFrameNumber, offset, 4, 4);
AT(HsdFrameNumber, number, 8, 8);
WHOLE(HsdFrameNumber, 16, 8);

AT(HsdSlate, satellite, 0, 1);
AT(HsdSlate, total, 1, 1);
AT(HsdSlate, timeline, 2, 2);
AT(HsdSlate, band, 4, 2);
AT(HsdSlate, columns, 6, 2);
AT(HsdSlate, heights, 8, 198);
AT(HsdSlate, heights[98], 204, 2);
AT(HsdSlate, day, 208, 4);
AT(HsdSlate, area, 212, 4);
WHOLE(HsdSlate, 216, 4);

AT(HsdAnswer, refusal, 0, 1);
AT(HsdAnswer, block, 1, 1);
AT(HsdAnswer, offset, 4, 4);
WHOLE(HsdAnswer, 8, 4);

AT(HsdWhy, refusal, 0, 1);
AT(HsdWhy, block, 1, 1);
AT(HsdWhy, part, 2, 1);
AT(HsdWhy, offset, 4, 4);
AT(HsdWhy, slate, 8, 8);
AT(HsdWhy, file, 16, 8);
WHOLE(HsdWhy, 24, 8);

AT(HsdReel, refusal, 0, 1);
AT(HsdReel, block, 1, 1);
AT(HsdReel, files, 2, 2);
AT(HsdReel, offset, 4, 4);
WHOLE(HsdReel, 8, 4);

AT(HsdPart, offset, 0, 4);
AT(HsdPart, length, 4, 4);
WHOLE(HsdPart, 8, 4);

AT(HsdRun, radiance, 0, 8);
AT(HsdRun, error, 8, 8);
AT(HsdRun, outside, 16, 8);
AT(HsdRun, over, 24, 8);
AT(HsdRun, uncalibrated, 32, 8);
AT(HsdRun, accepted, 40, 4);
AT(HsdRun, refused, 44, 256);
AT(HsdRun, refused[63], 296, 4);
WHOLE(HsdRun, 304, 8);

AT(HsdNight, refusal, 0, 1);
AT(HsdNight, block, 1, 1);
AT(HsdNight, offset, 4, 4);
AT(HsdNight, extra, 8, 8);
AT(HsdNight, run, 16, 304);
WHOLE(HsdNight, 320, 8);

/* All that hsd.h has, as host/ctest/run makes sure: 7 is nothing's number. */
#define NUMBERED(name, number) _Static_assert(name == (number), #name)

NUMBERED(HSD_FINE, 0);
NUMBERED(HSD_SHORT, 1);
NUMBERED(HSD_NUMBER, 2);
NUMBERED(HSD_ORDER, 3);
NUMBERED(HSD_LENGTH, 4);
NUMBERED(HSD_FIXED, 5);
NUMBERED(HSD_PACKED, 6);
NUMBERED(HSD_HEADER_SUM, 8);
NUMBERED(HSD_DATA_SUM, 9);
NUMBERED(HSD_NAME, 10);
NUMBERED(HSD_CUT, 11);
NUMBERED(HSD_TAIL, 12);
NUMBERED(HSD_SLATE, 13);
NUMBERED(HSD_STRIP, 14);
NUMBERED(HSD_OTHER_SHOT, 15);
NUMBERED(HSD_ALREADY, 16);
NUMBERED(HSD_ROOM, 17);
NUMBERED(HSD_REEL, 18);
NUMBERED(HSD_RUN, 19);
NUMBERED(HSD_SATELLITE_FIELD, 31);
NUMBERED(HSD_AREA_FIELD, 32);
NUMBERED(HSD_TIMELINE_FIELD, 33);
NUMBERED(HSD_SIZE_FIELD, 34);
NUMBERED(HSD_COMPRESSION_FIELD, 35);
NUMBERED(HSD_BAND_FIELD, 36);
NUMBERED(HSD_BITS_FIELD, 37);
NUMBERED(HSD_SEGMENT_FIELD, 38);
NUMBERED(HSD_DAY_FIELD, 39);

NUMBERED(HSD_RADIANCE, 0);
NUMBERED(HSD_ERROR_PIXEL, 1);
NUMBERED(HSD_OUTSIDE, 2);
NUMBERED(HSD_OVER_RANGE, 3);
NUMBERED(HSD_UNCALIBRATED, 4);

NUMBERED(HSD_NO, 0);
NUMBERED(HSD_YES, 1);
NUMBERED(HSD_NOT_KNOWN, 2);

NUMBERED(HSD_WHY_AGREES, 0);
NUMBERED(HSD_WHY_SATELLITE, 1);
NUMBERED(HSD_WHY_DAY, 2);
NUMBERED(HSD_WHY_TIMELINE, 3);
NUMBERED(HSD_WHY_BAND, 4);
NUMBERED(HSD_WHY_AREA, 5);
NUMBERED(HSD_WHY_COLUMNS, 6);
NUMBERED(HSD_WHY_TOTAL, 7);
NUMBERED(HSD_WHY_LINES, 8);
NUMBERED(HSD_WHY_FIRST_LINE, 9);

NUMBERED(HSD_MARKS, 99);

int main(void)
{
    puts("layout: as x86-64 has it");
    return 0;
}
