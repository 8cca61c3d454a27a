/* Panulimbe: a proved reader of Himawari Standard Data (HSD), for C and C++. Link with libpanulimbe.a (x86-64 Linux).
 *
 * What holds for every function here:
 *  - It answers whatever the numbers and bytes are: nothing needs to have been checked before.
 *  - It allocates nothing and keeps nothing; calls in several threads at once are fine.
 *  - A refusal changes no lent element, and shows its number, its block and the offset of the field that it concerns, in
 *    bytes from the file's start: everything else in the answer is 0, but for the run that hsd_night_add hands back.
 *
 * What it needs from you, since no function can check it:
 *  - A pointer and a length lend it so many elements of readable (or writable) memory. The pointer must not be NULL, even
 *    when the length is 0. A pointer to counts is aligned for uint16_t, one to bytes need not be aligned at all.
 *  - Lent memory is private to the call: nobody else, no other thread, process or device, may write to it meanwhile. So
 *    never lend a mapped file, which another process can change: read it into memory of your own. A file that changed
 *    between its checks and its copying could be written past the frame's end.
 *  - What a function writes (a pointer without const) overlaps nothing else that is lent in the same call. Things that it
 *    only reads may overlap.
 *  - The processor computes floating-point numbers as a C program finds it at its start: rounding to nearest, and no
 *    flushing of small numbers to zero (not FTZ, not DAZ). In another mode hsd_read_count, hsd_reading and hsd_night_add
 *    give other numbers. */
#ifndef HSD_H
#define HSD_H

#include <stddef.h>
#include <stdint.h>

#ifdef __cplusplus
extern "C" {
#endif

/* Why something is turned away. The first check that fails answers. 7 is no refusal. */
enum {
    HSD_FINE = 0,               /* it is not */
    HSD_SHORT = 1,              /* too few bytes for the block */
    HSD_NUMBER = 2,             /* the block does not begin with its number */
    HSD_ORDER = 3,              /* byte order above 1 */
    HSD_LENGTH = 4,             /* the block's length is not the format's */
    HSD_FIXED = 5,              /* block count, bits, or one of the two special counts is not the format's */
    HSD_PACKED = 6,             /* the counts are packed */
    HSD_HEADER_SUM = 8,         /* total header length is not the sum of the blocks */
    HSD_DATA_SUM = 9,           /* total data length is not 2 x columns x lines */
    HSD_NAME = 10,              /* the name in block 1 is not spelt by the rule, or does not agree with the header */
    HSD_CUT = 11,               /* counts are missing at the end */
    HSD_TAIL = 12,              /* bytes after the last count */
    HSD_SLATE = 13,             /* bad slate, or bad marks */
    HSD_STRIP = 14,             /* the frame is not exactly of the slate's size */
    HSD_OTHER_SHOT = 15,        /* a good file, but not one of the slate's */
    HSD_ALREADY = 16,           /* a segment with its number is in */
    HSD_ROOM = 17,              /* the output is too short for the reel, or for its trailer */
    HSD_REEL = 18,              /* bytes that are no reel, or a list of files that has none */
    HSD_RUN = 19,               /* a run that holds 4,096 files or more, or numbers above its limits */
    HSD_SATELLITE_FIELD = 31,   /* these are values out of their ranges: block 1's satellite */
    HSD_AREA_FIELD = 32,        /* its area */
    HSD_TIMELINE_FIELD = 33,    /* its timeline; with block 0 a timeline of hsd_frame_number */
    HSD_SIZE_FIELD = 34,        /* block 2's columns or lines */
    HSD_COMPRESSION_FIELD = 35, /* its compression flag, above 2 */
    HSD_BAND_FIELD = 36,        /* block 5's band */
    HSD_BITS_FIELD = 37,        /* its valid bits, which are not the band's */
    HSD_SEGMENT_FIELD = 38,     /* block 7's segment total, segment number or first line */
    HSD_DAY_FIELD = 39          /* with block 0: a day of hsd_frame_number */
};

/* What a count reads as. */
enum {
    HSD_RADIANCE = 0,
    HSD_ERROR_PIXEL = 1,  /* count 65,535 */
    HSD_OUTSIDE = 2,      /* count 65,534: outside the scan */
    HSD_OVER_RANGE = 3,   /* 2 to the valid bits, or more */
    HSD_UNCALIBRATED = 4  /* gain and constant give no finite number */
};

/* What quality flag 1 says of one thing. */
enum {
    HSD_NO = 0,
    HSD_YES = 1,
    HSD_NOT_KNOWN = 2 /* the flag is not valid: neither yes nor no */
};

/* In which part a file is not of a slate, in the order in which they are looked at. */
enum {
    HSD_WHY_AGREES = 0, /* in none */
    HSD_WHY_SATELLITE = 1,
    HSD_WHY_DAY = 2,
    HSD_WHY_TIMELINE = 3,
    HSD_WHY_BAND = 4,
    HSD_WHY_AREA = 5,
    HSD_WHY_COLUMNS = 6,
    HSD_WHY_TOTAL = 7, /* of the segments */
    HSD_WHY_LINES = 8, /* of the segment */
    HSD_WHY_FIRST_LINE = 9
};

/* How many marks a record has, and how many heights a slate has room for, whatever its total. */
enum { HSD_MARKS = 99 };

/* An area from its four letters, as HSD_AREA('F', 'L', 'D', 'K'). */
#define HSD_AREA(a, b, c, d)                                                                                            \
    ((uint32_t)(uint8_t)(a) << 24 | (uint32_t)(uint8_t)(b) << 16 | (uint32_t)(uint8_t)(c) << 8 | (uint32_t)(uint8_t)(d))

/* What a file says. */
typedef struct HsdFile {
    uint8_t refusal;        /* HSD_FINE, HSD_SHORT to HSD_TAIL, or HSD_SATELLITE_FIELD to HSD_SEGMENT_FIELD */
    uint8_t block;          /* of a refusal: 1 to 11, or 12 for the counts */
    uint8_t satellite;      /* 8 or 9 */
    uint8_t quality;        /* quality flag 1, as it stands in the file; hsd_quality says what it means */
    uint32_t offset;        /* of a refusal: where the first field at fault stands, in bytes from the file's start; for
                               HSD_SHORT where the block starts, for HSD_CUT and HSD_TAIL where the counts do */
    uint32_t day;           /* Modified Julian Day of the name's date: 51,544 is 2000-01-01 */
    uint16_t timeline;      /* hhmm as a number: 200 is 02:00 */
    uint16_t band;          /* 1 to 16 */
    uint32_t area;          /* four letters, the first one highest */
    uint16_t columns;       /* 1 to 22,000 */
    uint16_t lines;         /* 1 to 22,000 */
    uint8_t number;         /* of the segment, 1 to total */
    uint8_t total;          /* segments of the frame, 1 to 99 */
    uint16_t first_line;    /* of the segment in the frame; lines count from 1 */
    uint16_t valid_bits;    /* 11, 12 or 14, by the band */
    uint8_t order;          /* of the bytes: 0 little-endian, 1 big-endian */
    uint32_t header_length; /* bytes, always an odd number; the counts follow, 2 bytes each, line by line: so they stand
                               at odd places, and must be read byte by byte (or by hsd_offer), not through a uint16_t * */
    double gain;            /* any NaN's pattern in the file is some NaN here */
    double constant;        /* the same */
} HsdFile;

/* A file's verdict and what it says. file: its bytes, all of them. */
HsdFile hsd_accept(const uint8_t *file, size_t file_length);

/* What a count reads as. */
typedef struct HsdReading {
    double radiance; /* finite; 0 for every kind but HSD_RADIANCE */
    uint8_t kind;    /* HSD_RADIANCE to HSD_UNCALIBRATED */
} HsdReading;

/* Reads a count, given as a number, of a file that hsd_accept has accepted: by the file's own gain and constant, which
 * travel together, and its valid bits. */
HsdReading hsd_reading(HsdFile file, uint16_t count);

/* The same with these given one by one: gain times count, rounded once, plus constant, rounded once. */
HsdReading hsd_read_count(double gain, double constant, uint16_t valid_bits, uint16_t count);

/* What quality flag 1 says: HSD_NO, HSD_YES or HSD_NOT_KNOWN each, the highest bit first. With the highest bit set the flag
 * is not valid: invalid is HSD_YES and every other one HSD_NOT_KNOWN. With it clear each is yes or no as its bit stands.
 * Compare with HSD_YES or HSD_NO: HSD_NOT_KNOWN is neither, and a bare if (q.eclipse) would take it for yes. */
typedef struct HsdQuality {
    uint8_t invalid;           /* the flag is not valid; always HSD_NO or HSD_YES */
    uint8_t sun;               /* the sun may have lessened the quality */
    uint8_t moon;              /* the moon may have lessened the quality */
    uint8_t test;              /* the satellite is under test */
    uint8_t manoeuvre;         /* the orbit is being corrected */
    uint8_t unloading;         /* momentum is being unloaded */
    uint8_t solar_calibration; /* the sun is looked at for calibration */
    uint8_t eclipse;           /* the satellite is in eclipse */
} HsdQuality;

/* The marks of quality flag 1: give the quality of a file that hsd_accept has accepted. (That of a refused one is 0, like
 * all else in its answer, and means nothing.) */
HsdQuality hsd_quality(uint8_t quality);

/* A shot's number on the film. */
typedef struct HsdFrameNumber {
    uint8_t refusal; /* HSD_FINE; HSD_DAY_FIELD, either day out of 51,544 to 88,068; or HSD_TIMELINE_FIELD, either no hhmm */
    uint8_t block;   /* 0 */
    uint32_t offset; /* 0: these numbers come from no file */
    int64_t number;  /* 10 minutes each, negative for a shot before the first */
} HsdFrameNumber;

HsdFrameNumber hsd_frame_number(uint32_t first_day, uint16_t first_timeline, uint32_t day, uint16_t timeline);

/* The Modified Julian Day of a date, or 0 if it is not a real date of 2000 to 2099. */
uint32_t hsd_day(uint16_t year, uint8_t month, uint8_t day);

/* The valid bits of a band's counts, or 0 if it is not a band of 1 to 16. */
uint16_t hsd_valid_bits(uint16_t band);

/* What a frame is to show. Good when each part is in the range below, and the heights of segments 1 to total add up to at most
 * 22,000, the frame's lines. What stands beyond the total'th height is ignored, and may be anything. Segment k begins one
 * line after segments 1 to k - 1 end. Even segments are simply heights that agree:
 *
 *   for (int k = 0; k < slate.total; k++)
 *       slate.heights[k] = 550; */
typedef struct HsdSlate {
    uint8_t satellite;           /* 8 or 9 */
    uint8_t total;               /* segments, 1 to 99 */
    uint16_t timeline;           /* hhmm as a number, by tens of minutes */
    uint16_t band;               /* 1 to 16 */
    uint16_t columns;            /* 1 to 22,000 */
    uint16_t heights[HSD_MARKS]; /* heights[k - 1] is how many lines segment k has, at least 1 */
    uint32_t day;                /* Modified Julian Day, 51,544 to 88,068 */
    uint32_t area;               /* four letters, the first one highest */
} HsdSlate;

typedef struct HsdAnswer {
    uint8_t refusal; /* HSD_FINE, or why not */
    uint8_t block;   /* of a file's refusal; else 0 */
    uint32_t offset; /* of a file's refusal, as in HsdFile; else 0 */
} HsdAnswer;

/* A record of what is in is HSD_MARKS bytes, each 0 or 1: marks[k - 1] is 1 when segment k is in. Another length or another
 * byte is HSD_SLATE, and so is a mark beyond the slate's total. A frame is as many lines of counts as the heights add up to,
 * one after the other, each of them columns counts; frame_length counts counts, not bytes. */

/* Starts a frame: HSD_SLATE, HSD_STRIP, or fine. When fine, every mark is 0 and every count of the frame is 65,534: that is
 * also a lawful count, so the marks alone say what is in. It makes the record and reads none: whatever the HSD_MARKS bytes
 * hold will do, and only another length is HSD_SLATE. */
HsdAnswer hsd_open(HsdSlate slate, uint8_t *marks, size_t marks_length, uint16_t *frame, size_t frame_length);

/* Offers a file: HSD_SLATE, HSD_STRIP, what hsd_accept says of a refused file, HSD_OTHER_SHOT, HSD_ALREADY, or fine. When
 * fine, the segment's lines of the frame are the file's counts as numbers, its mark is 1, and nothing else has changed.
 * Files may come in any order. */
HsdAnswer hsd_offer(HsdSlate slate, uint8_t *marks, size_t marks_length, uint16_t *frame, size_t frame_length,
                    const uint8_t *file, size_t file_length);

/* Copies a line of the frame, counted from 1, to the front of out: from the frame if the segment that covers the line is in,
 * or else from the leader, its first counts. Answers how many counts these are: the slate's columns. Answers 0, with out as
 * it was, for a bad slate or record, a frame of another size, a line outside 1 to the sum of the heights, a missing segment
 * with a leader shorter than a line, or an out shorter than a line. */
size_t hsd_line(HsdSlate slate, const uint8_t *marks, size_t marks_length, const uint16_t *frame, size_t frame_length,
                const uint16_t *leader, size_t leader_length, uint16_t line, uint16_t *out, size_t out_length);

typedef struct HsdWhy {
    uint8_t refusal; /* HSD_FINE; HSD_SLATE, told before the file is looked at; or what hsd_accept says of a refused file */
    uint8_t block;   /* of a file's refusal; else 0 */
    uint8_t part;    /* HSD_WHY_AGREES, or the first part in which the two differ: all those before it agree */
    uint32_t offset; /* of a file's refusal, as in HsdFile; else 0 */
    uint64_t slate;  /* what the slate says of that part, as in HsdSlate: of the lines, the height of the segment of the file's
                        number; of the first line, where that segment begins, 1 + the heights of all before it; 0 for
                        HSD_WHY_AGREES */
    uint64_t file;   /* what the file says of it, as in HsdFile; 0 for HSD_WHY_AGREES */
} HsdWhy;

/* Why a file is not one of the slate's. Of a good slate and an accepted file HSD_WHY_AGREES is said exactly when hsd_offer
 * answers HSD_OTHER_SHOT for no record and no frame. Look at the refusal first: with one the part is 0, too. */
HsdWhy hsd_why(HsdSlate slate, const uint8_t *file, size_t file_length);

/* A reel is 1 to 255 whole files end to end and then a trailer, all little-endian: for each file its offset and length (4
 * bytes each), the number of files (1 byte), the offset of the trailer's first byte (4 bytes), and the letters REEL. The
 * entries tile the reel from 0 to the trailer, in order, each part is an accepted file, and a reel is smaller than 2 to the
 * 32 bytes. A list of files has one reel. */

typedef struct HsdReel {
    uint8_t refusal; /* HSD_FINE; HSD_REEL, told before any file is looked at; or the first refused file's own */
    uint8_t block;   /* of a file's refusal; else 0 */
    uint16_t files;  /* how many, 1 to 255 */
    uint32_t offset; /* of a file's refusal, from that file's start, not the reel's; else 0 */
} HsdReel;

/* Opens a reel: judges the trailer, and then each file. It reads the headers and no count. */
HsdReel hsd_reel_open(const uint8_t *reel, size_t reel_length);

/* Where a file stands in a reel, in bytes. */
typedef struct HsdPart {
    uint32_t offset;
    uint32_t length;
} HsdPart;

/* The file of a number, counted from 1: what its entry says, if the entry and what it points to lie wholly in the reel, and
 * else 0 and 0. In a reel that hsd_reel_open has opened these are its files, 1 to `files`; of other bytes it says no more than
 * what stands there. So which file of a refused reel is at fault can be found, unless it is HSD_REEL, which is told before any:
 *
 *   HsdReel answer = hsd_reel_open(reel, reel_length);
 *   for (uint16_t number = 1; answer.refusal && answer.refusal != HSD_REEL; number++) {
 *       HsdPart part = hsd_reel_part(reel, reel_length, number);
 *       if (hsd_accept(reel + part.offset, part.length).refusal)
 *           return number;
 *   } */
HsdPart hsd_reel_part(const uint8_t *reel, size_t reel_length, uint16_t number);

/* How many bytes a trailer of so many files has, or 0 if no reel has so many. */
size_t hsd_reel_trailer(size_t files);

/* Writes the reel of files that stand end to end, given their lengths, to the front of out: HSD_REEL (no files or more than
 * 255, lengths that do not add up to files_length, or a reel of 2 to the 32 bytes or more), the first refused file's own
 * refusal, HSD_ROOM (out is shorter than files_length and the trailer), or fine. lengths_length counts lengths, not bytes,
 * and the pointer to them is aligned for uint32_t. What stands in out after the reel stays as it was. */
HsdAnswer hsd_reel_write(const uint8_t *files, size_t files_length, const uint32_t *lengths, size_t lengths_length,
                         uint8_t *out, size_t out_length);

/* The same with the trailer alone, which goes to the front of out: for files that already stand where the reel is to be,
 * with out right after them. */
HsdAnswer hsd_reel_seal(const uint8_t *files, size_t files_length, const uint32_t *lengths, size_t lengths_length,
                        uint8_t *out, size_t out_length);

/* A run of up to 4,096 files: how many counts of the accepted ones read as each kind, and how many files were accepted and
 * refused. A run begins as zeros, HsdRun run = {0}, and the run that a call hands back goes into the next one. Whatever
 * numbers stand in it, it gets an answer. There is padding behind the last number: compare runs number by number. */
typedef struct HsdRun {
    uint64_t radiance; /* how many counts are HSD_RADIANCE, and so on */
    uint64_t error;
    uint64_t outside;
    uint64_t over;
    uint64_t uncalibrated;
    uint32_t accepted;    /* files */
    uint32_t refused[64]; /* files, by the number of their refusal; HSD_RUN counts none */
} HsdRun;

typedef struct HsdNight {
    uint8_t refusal; /* HSD_FINE; HSD_RUN, told before the file is looked at; or what hsd_accept says of a refused file */
    uint8_t block;   /* of a file's refusal; else 0 */
    uint32_t offset; /* of a file's refusal, as in HsdFile; else 0 */
    int64_t extra;   /* how many counts of an accepted file are HSD_ERROR_PIXEL, less the sum that its block 10 lists: as low
                        as -4,294,836,225 */
    HsdRun run;      /* the newest: with this file in it, or as it was where the answer is HSD_RUN */
} HsdNight;

/* Adds a file to a run. Accepted, each kind's total grows by how many of its counts hsd_reading calls so, and accepted by
 * one; refused, refused[refusal] grows by one, and nothing else. HSD_RUN, with the run as it was: accepted and all of refused
 * add up to 4,096 or more, a kind's total is above 4,096 x 484,000,000, or one of refused is above 4,096. (A total that
 * begins within its limit may pass it with a file: then the next call is HSD_RUN.) */
HsdNight hsd_night_add(HsdRun run, const uint8_t *file, size_t file_length);

#ifdef __cplusplus
}
#endif

#endif
