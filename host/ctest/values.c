/* The functions on plain numbers, from C: readings, marks of quality, film frame numbers, days, valid bits. */
#include <math.h>
#include <string.h>

#include "any.h"
#include "hsd.h"
#include "test.h"

static bool reads(HsdReading given, uint8_t kind, double radiance)
{
    return given.kind == kind && memcmp(&given.radiance, &radiance, sizeof radiance) == 0;
}

static void check_readings(void)
{
    CHECK(reads(hsd_read_count(0.5, -1, 11, 10), HSD_RADIANCE, 4.0));
    CHECK(reads(hsd_read_count(0.5, -1, 11, 2047), HSD_RADIANCE, 1022.5));
    CHECK(reads(hsd_read_count(0.5, -1, 11, 2048), HSD_OVER_RANGE, 0));
    CHECK(reads(hsd_read_count(0.5, -1, 11, 65534), HSD_OUTSIDE, 0));
    CHECK(reads(hsd_read_count(0.5, -1, 11, 65535), HSD_ERROR_PIXEL, 0));
    CHECK(reads(hsd_read_count(0x1p1023, -1, 11, 2), HSD_UNCALIBRATED, 0));
    CHECK(reads(hsd_read_count((double)NAN, -1, 11, 2), HSD_UNCALIBRATED, 0));
    CHECK(reads(hsd_read_count((double)INFINITY, 0, 11, 0), HSD_UNCALIBRATED, 0));
    CHECK(reads(hsd_read_count(-0.5, 10, 11, 4), HSD_RADIANCE, 8.0));
    CHECK(reads(hsd_read_count(1, 0, 0, 0), HSD_RADIANCE, 0));
    CHECK(reads(hsd_read_count(1, 0, 0, 1), HSD_OVER_RANGE, 0));
    CHECK(reads(hsd_read_count(1, 0, 15, 32768), HSD_OVER_RANGE, 0));
    CHECK(reads(hsd_read_count(1, 0, 16, 65533), HSD_RADIANCE, 65533));
    CHECK(reads(hsd_read_count(1, 0, 65535, 65533), HSD_RADIANCE, 65533));
}

/* The eight marks, the highest bit's first. */
static bool marks(HsdQuality given, const uint8_t wanted[8])
{
    const uint8_t told[] = {given.invalid,   given.sun,       given.moon,              given.test,
                            given.manoeuvre, given.unloading, given.solar_calibration, given.eclipse};
    return memcmp(told, wanted, sizeof told) == 0;
}

/* A byte with its top bit set disowns every mark but the first. */
static uint8_t mark(unsigned quality, unsigned place)
{
    if (place > 0 && quality > 127)
        return HSD_NOT_KNOWN;
    return quality << place & 128 ? HSD_YES : HSD_NO;
}

static void check_quality(void)
{
    for (unsigned quality = 0; quality < 256; quality++) {
        uint8_t wanted[8];
        for (unsigned place = 0; place < 8; place++)
            wanted[place] = mark(quality, place);
        CHECK(marks(hsd_quality((uint8_t)quality), wanted));
    }
}

/* The stereo artist skipped a good hour: in eclipse was lit, and so was the bit that says that the flag is not valid. */
static void check_artists_hour(void)
{
    HsdQuality hour = hsd_quality(0x81);
    CHECK(hour.invalid == HSD_YES);
    CHECK(hour.eclipse == HSD_NOT_KNOWN);
    CHECK(hsd_quality(0x01).invalid == HSD_NO);
    CHECK(hsd_quality(0x01).eclipse == HSD_YES);
}

static bool numbers(HsdFrameNumber given, uint8_t refusal, int64_t number)
{
    return given.refusal == refusal && given.block == 0 && given.offset == 0 && given.number == number;
}

static void check_frame_numbers(void)
{
    CHECK(numbers(hsd_frame_number(57209, 2350, 57210, 0), HSD_FINE, 1));
    CHECK(numbers(hsd_frame_number(57210, 0, 57209, 2350), HSD_FINE, -1));
    CHECK(numbers(hsd_frame_number(57210, 200, 57210, 200), HSD_FINE, 0));
    CHECK(numbers(hsd_frame_number(51544, 0, 88068, 2350), HSD_FINE, 5259599));
    CHECK(numbers(hsd_frame_number(88068, 2350, 51544, 0), HSD_FINE, -5259599));
    CHECK(numbers(hsd_frame_number(51543, 0, 57210, 0), HSD_DAY_FIELD, 0));
    CHECK(numbers(hsd_frame_number(57210, 0, 88069, 0), HSD_DAY_FIELD, 0));
    CHECK(numbers(hsd_frame_number(57210, 2400, 57210, 0), HSD_TIMELINE_FIELD, 0));
    CHECK(numbers(hsd_frame_number(57210, 0, 57210, 60), HSD_TIMELINE_FIELD, 0));
    CHECK(numbers(hsd_frame_number(57210, 0, 57210, 5), HSD_TIMELINE_FIELD, 0));
}

/* Every pair of two faults: either day answers before either timeline. */
static void check_two_faults(void)
{
    CHECK(numbers(hsd_frame_number(51543, 2400, 57210, 0), HSD_DAY_FIELD, 0));
    CHECK(numbers(hsd_frame_number(51543, 0, 88069, 0), HSD_DAY_FIELD, 0));
    CHECK(numbers(hsd_frame_number(51543, 0, 57210, 2400), HSD_DAY_FIELD, 0));
    CHECK(numbers(hsd_frame_number(57210, 2400, 88069, 0), HSD_DAY_FIELD, 0));
    CHECK(numbers(hsd_frame_number(57210, 2400, 57210, 60), HSD_TIMELINE_FIELD, 0));
    CHECK(numbers(hsd_frame_number(57210, 0, 88069, 2400), HSD_DAY_FIELD, 0));
}

static bool is_day(uint32_t day)
{
    return day >= 51544 && day <= 88068;
}

static bool is_timeline(uint16_t timeline)
{
    return timeline / 100 <= 23 && timeline % 100 <= 50 && timeline % 10 == 0;
}

static int64_t slot(uint32_t day, uint16_t timeline)
{
    return (int64_t)day * 144 + timeline / 100 * 6 + timeline % 100 / 10;
}

/* The judge: what document 01 and ask 3 say of four numbers, and whether that is what is given. */
static bool is_judged(uint32_t first_day, uint16_t first_timeline, uint32_t day, uint16_t timeline)
{
    HsdFrameNumber given = hsd_frame_number(first_day, first_timeline, day, timeline);
    if (!is_day(first_day) || !is_day(day))
        return numbers(given, HSD_DAY_FIELD, 0);
    if (!is_timeline(first_timeline) || !is_timeline(timeline))
        return numbers(given, HSD_TIMELINE_FIELD, 0);
    return numbers(given, HSD_FINE, slot(day, timeline) - slot(first_day, first_timeline));
}

/* Good numbers and bad ones around every edge, in all four places at once. */
static void check_edges(void)
{
    static const uint32_t days[] = {0, 51543, 51544, 57210, 88068, 88069, 117080, UINT32_MAX};
    static const uint16_t times[] = {0, 5, 10, 50, 55, 60, 100, 199, 2350, 2360, 2400, UINT16_MAX};
    enum { DAYS = sizeof days / sizeof *days, TIMES = sizeof times / sizeof *times, SHOTS = DAYS * TIMES };
    for (size_t i = 0; i < SHOTS; i++)
        for (size_t j = 0; j < SHOTS; j++)
            CHECK(is_judged(days[i / TIMES], times[i % TIMES], days[j / TIMES], times[j % TIMES]));
}

/* Mostly good ones: else a bad day would nearly always answer. */
static uint32_t any_day(void)
{
    return any_below(8) ? 51544 + any_below(36525) : any_below(2) ? 51534 + any_below(36545) : (uint32_t)any();
}

static uint16_t any_timeline(void)
{
    uint32_t tens = any_below(24 * 6);
    return (uint16_t)(any_below(8) ? tens / 6 * 100 + tens % 6 * 10 : any_below(2) ? any_below(2500) : any());
}

static void check_any_shots(void)
{
    for (unsigned i = 0; i < 20000; i++) {
        uint32_t first_day = any_day(), day = any_day();
        uint16_t first_timeline = any_timeline(), timeline = any_timeline();
        CHECK(is_judged(first_day, first_timeline, day, timeline));
    }
}

/* How many days a month has, by the almanac, and 0 for what is no month. */
static unsigned month_length(unsigned year, unsigned month)
{
    static const unsigned lengths[] = {31, 28, 31, 30, 31, 30, 31, 31, 30, 31, 30, 31};
    bool leap = year % 4 == 0 && (year % 100 != 0 || year % 400 == 0);
    return month >= 1 && month <= 12 ? lengths[month - 1] + (month == 2 && leap) : 0;
}

/* The 36,525 days of the century come one after the other, and every other date is 0. */
static void check_days(void)
{
    uint32_t next = 51544;
    for (unsigned i = 0; i < 100 * 14 * 33; i++) {
        unsigned year = 2000 + i / (14 * 33), month = i / 33 % 14, day = i % 33;
        bool real = day >= 1 && day <= month_length(year, month);
        CHECK(hsd_day((uint16_t)year, (uint8_t)month, (uint8_t)day) == (real ? next : 0));
        next += real;
    }
    CHECK(next == 51544 + 36525);
    CHECK(hsd_day(2015, 7, 7) == 57210);
    CHECK(hsd_day(1999, 12, 31) == 0 && hsd_day(2100, 1, 1) == 0);
    CHECK(hsd_day(65535, 255, 255) == 0);
}

/* The day on which a month begins, months counted from January 2000 as 0. */
static uint32_t month_start(unsigned i)
{
    return hsd_day((uint16_t)(2000 + i / 12), (uint8_t)(i % 12 + 1), 1);
}

/* The sheet by its 1,199 differences: each month begins as many days after the one before as that one has. */
static void check_months(void)
{
    for (unsigned i = 0; i < 1199; i++)
        CHECK(month_start(i + 1) - month_start(i) == month_length(2000 + i / 12, i % 12 + 1));
    CHECK(month_start(0) == 51544 && month_start(1199) == 88038);
}

static void check_valid_bits(void)
{
    static const uint16_t bits[] = {0, 11, 11, 11, 11, 11, 11, 14, 11, 11, 12, 12, 12, 12, 12, 12, 11, 0};
    for (uint16_t band = 0; band <= 17; band++)
        CHECK(hsd_valid_bits(band) == bits[band]);
    CHECK(hsd_valid_bits(65535) == 0);
}

int main(void)
{
    check_readings();
    check_quality();
    check_artists_hour();
    check_frame_numbers();
    check_two_faults();
    check_edges();
    check_any_shots();
    check_days();
    check_months();
    check_valid_bits();
    return checked("values");
}
