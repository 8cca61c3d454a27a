/* Where a file's fault is said to be, by every function that takes files: each refusal at each of its fields (ask 3), two of them at
   once, and files damaged at random. The files are made here, by document 01. */
#include "answers.h"
#include "good.h"
#include "memory.h"
#include "test.h"
#include "trailer.h"

enum {
    SIZE = TOTAL * LINES * COLUMNS, /* of the frame */
    PARTS = 3,                      /* of a reel */
    REEL_ROOM = sizeof(File) + 2 * 2048,
    MOST_FAULTS = 400,
    LONG = 4096,    /* bytes of a file */
    DAMAGES = 50000 /* of each of four files */
};

/* What is changed in a good file, and what that earns. */
typedef struct Fault {
    HsdAnswer earned;
    Value values[2]; /* of size 0: none */
    size_t length;   /* of the file */
    bool is_again;   /* the second SHORT of its block, after LENGTH */
    bool is_lone;    /* another fault could mend it */
} Fault;

/* Numbers that break a rule, each in its block at its place: what they earn stands before them. */
#define ALL(...) sizeof((uint32_t[]){__VA_ARGS__}) / sizeof(uint32_t), {__VA_ARGS__}
static const struct {
    uint8_t refusal, block;
    uint16_t offset;
    uint8_t in, size;
    uint16_t place;
    size_t count;
    uint32_t numbers[8];
} numbers[] = {
    {HSD_ORDER, 1, 5, 1, 1, 5, ALL(2, 3, 128, 255)},
    {HSD_FIXED, 1, 3, 1, 2, 3, ALL(10, 12, 0, 2816)},
    {HSD_FIXED, 2, 285, 2, 2, 3, ALL(15, 17, 0, 4096)},
    {HSD_FIXED, 5, 613, 5, 2, 15, ALL(65534, 0, 32767)},
    {HSD_FIXED, 5, 615, 5, 2, 17, ALL(65535, 0, 65279)},
    {HSD_PACKED, 2, 291, 2, 1, 9, ALL(1, 2)},
    {HSD_HEADER_SUM, 1, 70, 1, 4, 70, ALL(0, 1462, 394564, UINT32_MAX)},
    {HSD_DATA_SUM, 1, 74, 1, 4, 74, ALL(0, DATA - 1, DATA + 1, DATA / 2, DATA + 65536, UINT32_MAX)},
    {HSD_DATA_SUM, 1, 74, 2, 2, 5, ALL(COLUMNS - 1, COLUMNS + 1, COLUMNS + 16384, 22000)}, /* by the columns */
    {HSD_DATA_SUM, 1, 74, 2, 2, 7, ALL(LINES + 1, LINES + 8192, 22000)},                   /* by the lines */
    {HSD_SATELLITE_FIELD, 1, 6, 1, 1, 6, ALL('h', 0)},
    {HSD_SATELLITE_FIELD, 1, 6, 1, 1, 15, ALL('7', ':', 0)},
    {HSD_SATELLITE_FIELD, 1, 6, 1, 1, 16, ALL(' ', '0')},
    {HSD_SATELLITE_FIELD, 1, 6, 1, 1, 21, ALL(1)},
    {HSD_TIMELINE_FIELD, 1, 44, 1, 2, 44, ALL(1, 5, 60, 199, 255, 2400, 51200, 65535)},
    {HSD_SIZE_FIELD, 2, 287, 2, 2, 5, ALL(0, 22001, 65535)},
    {HSD_SIZE_FIELD, 2, 289, 2, 2, 7, ALL(0, 22001, 65535)},
    {HSD_COMPRESSION_FIELD, 2, 291, 2, 1, 9, ALL(3, 4, 255)},
    {HSD_BAND_FIELD, 5, 601, 5, 2, 3, ALL(0, 17, 3328, 65535)},
    {HSD_BITS_FIELD, 5, 611, 5, 2, 13, ALL(0, 11, 13, 14, 16, 3072, 65535)},
    {HSD_SEGMENT_FIELD, 7, 1007, 7, 1, 3, ALL(0, 100, 255)},
    {HSD_SEGMENT_FIELD, 7, 1008, 7, 1, 4, ALL(0, TOTAL + 1, 99, 255)},
    {HSD_SEGMENT_FIELD, 7, 1009, 7, 2, 5, ALL(0, 22002 - LINES, 22001, 65535)},
    {HSD_NAME, 1, 114, 1, 1, 157, ALL(' ', 1)},
    {HSD_NAME, 1, 114, 1, 1, 241, ALL(1, 255)},
    {HSD_NAME, 1, 114, 1, 1, 15, ALL('9')}, /* the satellite that the name does not have, and so on */
    {HSD_NAME, 1, 114, 1, 2, 44, ALL(0, 210, 2350)},
    {HSD_NAME, 1, 114, 5, 2, 3, ALL(10, 12, 14, 15)},
    {HSD_NAME, 1, 114, 7, 1, 4, ALL(2)},
    {HSD_NAME, 1, 114, 7, 1, 3, ALL(1)},
};

/* The same with letters, which are all in block 1. */
static const struct {
    uint8_t refusal, offset, place;
    const char *letters;
} words[] = {
    {HSD_SATELLITE_FIELD, 6, 6, "MTSAT-2"}, {HSD_SATELLITE_FIELD, 6, 6, "HIMAWARI"}, {HSD_AREA_FIELD, 38, 38, "fldk"},
    {HSD_AREA_FIELD, 38, 38, "FLDX"},       {HSD_AREA_FIELD, 38, 38, "JP00"},        {HSD_AREA_FIELD, 38, 38, "JP05"},
    {HSD_AREA_FIELD, 38, 38, "R200"},       {HSD_AREA_FIELD, 38, 38, "R300"},        {HSD_AREA_FIELD, 38, 38, "R305"},
    {HSD_AREA_FIELD, 38, 38, "R400"},       {HSD_AREA_FIELD, 38, 38, "R421"},        {HSD_AREA_FIELD, 38, 38, "R500"},
    {HSD_AREA_FIELD, 38, 38, "R521"},       {HSD_AREA_FIELD, 38, 38, "R601"},        {HSD_AREA_FIELD, 38, 38, "R40:"},
    {HSD_AREA_FIELD, 38, 38, "HNDK"},       {HSD_NAME, 114, 38, "JP01"},             {HSD_NAME, 114, 38, "R520"},
    {HSD_NAME, 114, 114, "h"},              {HSD_NAME, 114, 114, "HX"},              {HSD_NAME, 114, 116, "-"},
    {HSD_NAME, 114, 117, "H09"},            {HSD_NAME, 114, 117, "H07"},             {HSD_NAME, 114, 120, " "},
    {HSD_NAME, 114, 121, "1999"},           {HSD_NAME, 114, 121, "2100"},            {HSD_NAME, 114, 121, "20230229"},
    {HSD_NAME, 114, 121, "20150732"},       {HSD_NAME, 114, 121, "20150700"},        {HSD_NAME, 114, 121, "20150431"},
    {HSD_NAME, 114, 121, "20150007"},       {HSD_NAME, 114, 121, "20151307"},        {HSD_NAME, 114, 121, "2015070:"},
    {HSD_NAME, 114, 130, "0210"},           {HSD_NAME, 114, 130, " 200"},            {HSD_NAME, 114, 135, "B12"},
    {HSD_NAME, 114, 135, "b13"},            {HSD_NAME, 114, 139, "JP01"},            {HSD_NAME, 114, 144, "R10"},
    {HSD_NAME, 114, 144, "R05"},            {HSD_NAME, 114, 148, "S02"},             {HSD_NAME, 114, 151, "03"},
    {HSD_NAME, 114, 153, ".dat"},           {HSD_NAME, 114, 156, "\1"},
};

/* Two changes that break one rule together, one that breaks it by another field, and then two rules broken, of which the first answers. */
static const struct {
    HsdAnswer earned;
    Value values[2];
} couples[] = {
    {{HSD_BITS_FIELD, 5, 611}, {{5, 2, 3, 7, NULL}, {0}}},
    {{HSD_BITS_FIELD, 5, 611}, {{5, 2, 3, 16, NULL}, {0}}},
    {{HSD_SEGMENT_FIELD, 7, 1008}, {{7, 1, 3, 1, NULL}, {7, 1, 4, 2, NULL}}},
    {{HSD_SEGMENT_FIELD, 7, 1008}, {{7, 1, 3, 98, NULL}, {7, 1, 4, 99, NULL}}},
    {{HSD_SEGMENT_FIELD, 7, 1009}, {{2, 2, 7, 3, NULL}, {7, 2, 5, 21999, NULL}}},
    {{HSD_SEGMENT_FIELD, 7, 1009}, {{2, 2, 7, 22000, NULL}, {7, 2, 5, 2, NULL}}},
    {{HSD_SEGMENT_FIELD, 7, 1009}, {{2, 2, 7, 22000, NULL}, {7, 2, 5, 65535, NULL}}},
    {{HSD_DATA_SUM, 1, 74}, {{2, 2, 5, 22000, NULL}, {2, 2, 7, 22000, NULL}}},
    {{HSD_DATA_SUM, 1, 74}, {{2, 2, 5, 16384, NULL}, {1, 4, 74, 0, NULL}}}, /* 2 x 16,384 x 2 is 0 in 16 bits */
    {{HSD_FIXED, 1, 3}, {{1, 2, 3, 10, NULL}, {1, 1, 6, 'h', NULL}}},
    {{HSD_PACKED, 2, 291}, {{2, 1, 9, 1, NULL}, {2, 2, 5, 0, NULL}}},
    {{HSD_SIZE_FIELD, 2, 287}, {{2, 1, 9, 3, NULL}, {2, 2, 5, 0, NULL}}},
    {{HSD_BAND_FIELD, 5, 601}, {{5, 2, 3, 17, NULL}, {5, 2, 13, 0, NULL}}},
    {{HSD_SEGMENT_FIELD, 7, 1007}, {{7, 1, 3, 0, NULL}, {7, 1, 4, 0, NULL}}},
};

static const HsdSlate slate = {.satellite = 8, .total = TOTAL, .timeline = 200, .band = 13, .columns = COLUMNS,
                               .heights = {LINES, LINES}, .day = 57210, .area = HSD_AREA('F', 'L', 'D', 'K')};
static HsdSlate other_shot, bad_slate;
static File good, file, neighbour; /* `file` is `good` with its faults */
static Fault faults[MOST_FAULTS];
static size_t fault_count;

static Fault *add(unsigned refusal, unsigned block, size_t offset)
{
    Fault *fault = &faults[fault_count++];
    *fault = (Fault){.earned = {(uint8_t)refusal, (uint8_t)block, (uint32_t)offset}, .length = good.length};
    return fault;
}

static void add_value(unsigned refusal, unsigned block, size_t offset, Value value)
{
    add(refusal, block, offset)->values[0] = value;
}

static void add_length(unsigned refusal, unsigned block, size_t offset, size_t length)
{
    add(refusal, block, offset)->length = length;
}

static void add_fields(void)
{
    for (size_t i = 0; i < sizeof numbers / sizeof *numbers; i++)
        for (size_t j = 0; j < numbers[i].count; j++)
            add_value(numbers[i].refusal, numbers[i].block, numbers[i].offset,
                      (Value){numbers[i].in, numbers[i].size, numbers[i].place, numbers[i].numbers[j], NULL});
    for (size_t i = 0; i < sizeof words / sizeof *words; i++)
        add_value(words[i].refusal, 1, words[i].offset,
                  (Value){1, (uint8_t)strlen(words[i].letters), words[i].place, 0, words[i].letters});
    for (size_t i = 0; i < sizeof couples / sizeof *couples; i++) {
        Fault *fault = add(couples[i].earned.refusal, couples[i].earned.block, couples[i].earned.offset);
        memcpy(fault->values, couples[i].values, sizeof fault->values);
        fault->is_lone = true;
    }
}

/* SHORT, NUMBER and LENGTH of every block. */
static void add_block(unsigned block)
{
    const size_t at = start(&good.plan, block), length = block_length(&good.plan, block);
    const size_t wrong[] = {0, length - 1, length + 1, length ^ 0x100, block == 10 ? length + 65536 : 65534};
    const uint8_t others[] = {0, (uint8_t)(block - 1), (uint8_t)(block + 1), 255};
    add_length(HSD_SHORT, block, at, at);
    add_length(HSD_SHORT, block, at, at + 1);
    add_length(HSD_SHORT, block, at, at + least_length(block) - 1);
    for (size_t i = 0; i < sizeof others / sizeof *others; i++)
        add_value(HSD_NUMBER, block, at, (Value){(uint8_t)block, 1, 0, others[i], NULL});
    for (size_t i = 0; i < sizeof wrong / sizeof *wrong; i++)
        add_value(HSD_LENGTH, block, at + 1, length_of(block, wrong[i]));
}

/* The second SHORT: cut within the entries, or more of them claimed than the file has room for. */
static void add_again(unsigned block, uint32_t most, size_t most_length)
{
    const size_t at = start(&good.plan, block), end = at + block_length(&good.plan, block);
    const size_t first = fault_count;
    if (good.plan.entries[block - 8] > 0) {
        add_length(HSD_SHORT, block, at, end - 1);
        add_length(HSD_SHORT, block, at, at + least_length(block));
    }
    if (at + most_length > good.length + SPARE) {
        Fault *fault = add(HSD_SHORT, block, at);
        fault->values[0] = entries_of(block, most);
        fault->values[1] = length_of(block, most_length);
    }
    for (size_t i = first; i < fault_count; i++)
        faults[i].is_again = true;
}

/* A number of entries that the length is not for; where it is in 16 bits alone, the length is at fault all the same. */
static void add_entries(unsigned block, uint32_t wrapping, size_t wrapped)
{
    const size_t at = start(&good.plan, block);
    add_value(HSD_LENGTH, block, at + 1, entries_of(block, good.plan.entries[block - 8] + 1));
    add_value(HSD_LENGTH, block, at + 1, entries_of(block, good.plan.entries[block - 8] ^ 0x8000));
    Fault *fault = add(HSD_LENGTH, block, at + 1);
    fault->values[0] = entries_of(block, wrapping);
    fault->values[1] = length_of(block, wrapped);
    fault->is_lone = true;
}

/* The sums by the file's own lengths, the other byte order, and too few or too many counts. */
static void add_whole(void)
{
    const size_t header = start(&good.plan, COUNTS);
    const size_t sums[] = {header - 1, header + 1, header + 65536, header + DATA};
    for (size_t i = 0; i < sizeof sums / sizeof *sums; i++)
        add_value(HSD_HEADER_SUM, 1, 70, (Value){1, 4, 70, (uint32_t)sums[i], NULL});
    add_value(HSD_LENGTH, 1, 1, (Value){1, 1, 5, !good.plan.order, NULL});
    add_length(HSD_CUT, COUNTS, header, header);
    add_length(HSD_CUT, COUNTS, header, header + 1);
    add_length(HSD_CUT, COUNTS, header, good.length - 1);
    add_length(HSD_TAIL, COUNTS, header, good.length + 1);
    add_length(HSD_TAIL, COUNTS, header, good.length + SPARE);
}

/* All faults that a good file of this plan can have. */
static void plan_faults(Plan plan)
{
    make_good(&good, plan);
    file = good;
    fault_count = 0;
    for (unsigned block = 1; block < COUNTS; block++)
        add_block(block);
    add_again(8, 6547, 65531);
    add_again(9, 6549, 65535);
    add_again(10, 65535, 262187);
    add_entries(8, 6548, 5);
    add_entries(9, 6550, 9);
    add_entries(10, 16384, 47);
    add_fields();
    add_whole();
    CHECK(fault_count <= MOST_FAULTS);
}

static void apply(const Fault *fault)
{
    for (size_t i = 0; i < 2; i++)
        if (fault->values[i].size)
            put_value(&file, fault->values[i]);
    if (fault->length != good.length)
        file.length = fault->length;
}

static void mend(const Fault *fault)
{
    for (size_t i = 0; i < 2; i++)
        if (fault->values[i].size) {
            size_t at = start(&good.plan, fault->values[i].block) + fault->values[i].place;
            memcpy(file.bytes + at, good.bytes + at, fault->values[i].size);
        }
    file.length = good.length;
}

static bool is_as(HsdAnswer answer, HsdAnswer wanted)
{
    return is(answer, wanted.refusal, wanted.block, wanted.offset);
}

/* Rows of blocks that stand at one place in every file. */
static const HsdAnswer rows[] = {
    {HSD_ORDER, 1, 5},
    {HSD_FIXED, 1, 3},
    {HSD_FIXED, 2, 285},
    {HSD_FIXED, 5, 613},
    {HSD_FIXED, 5, 615},
    {HSD_PACKED, 2, 291},
    {HSD_HEADER_SUM, 1, 70},
    {HSD_DATA_SUM, 1, 74},
    {HSD_NAME, 1, 114},
    {HSD_SATELLITE_FIELD, 1, 6},
    {HSD_AREA_FIELD, 1, 38},
    {HSD_TIMELINE_FIELD, 1, 44},
    {HSD_SIZE_FIELD, 2, 287},
    {HSD_SIZE_FIELD, 2, 289},
    {HSD_COMPRESSION_FIELD, 2, 291},
    {HSD_BAND_FIELD, 5, 601},
    {HSD_BITS_FIELD, 5, 611},
    {HSD_SEGMENT_FIELD, 7, 1007},
    {HSD_SEGMENT_FIELD, 7, 1008},
    {HSD_SEGMENT_FIELD, 7, 1009},
};
enum { ROWS = sizeof rows / sizeof *rows };

/* The row of these numbers, or ROWS. */
static size_t row_of(HsdAnswer answer)
{
    size_t row = 0;
    while (row < ROWS && !is_as(answer, rows[row]))
        row++;
    return row;
}

/* Where a block starts in any bytes, by the entries of those before it, whose own checks have passed. */
static size_t start_in(const File *of, unsigned block)
{
    Plan plan = {of->bytes[5], {0, 0, 0}};
    for (unsigned before = 8; before < block && before <= 10; before++) {
        size_t at = start(&plan, before) + entries_of(before, 0).place;
        if (at + 2 > of->length)
            break;
        unsigned one = of->bytes[at], other = of->bytes[at + 1];
        plan.entries[before - 8] = plan.order ? one << 8 | other : other << 8 | one;
    }
    return start(&plan, block);
}

/* Whether a file can be refused with these numbers at all. */
static bool is_a_row(const File *of, uint8_t refusal, uint8_t block, uint32_t offset)
{
    if (block < 1 || block > COUNTS)
        return false;
    size_t at = start_in(of, block);
    switch (refusal) {
    case HSD_SHORT:
    case HSD_NUMBER: return block < COUNTS && offset == at;
    case HSD_LENGTH: return block < COUNTS && offset == at + 1;
    case HSD_CUT:
    case HSD_TAIL: return block == COUNTS && offset == at;
    default: return row_of((HsdAnswer){refusal, block, offset}) < ROWS;
    }
}

/* What offering the lent file answers, with this mark for its number; all stays as it was. */
static HsdAnswer offered(HsdSlate to, uint8_t mark, size_t size, const uint8_t *lent)
{
    uint8_t marks[HSD_MARKS] = {mark, 1}, same_marks[HSD_MARKS] = {mark, 1};
    uint16_t frame[SIZE], same[SIZE];
    memset(frame, 0xa5, sizeof frame);
    memset(same, 0xa5, sizeof same);
    HsdAnswer answer = hsd_offer(to, marks, HSD_MARKS, frame, size, lent, file.length);
    CHECK(memcmp(marks, same_marks, sizeof marks) == 0 && memcmp(frame, same, sizeof frame) == 0);
    return answer;
}

/* Whether a run counts the lent file under its refusal and changes in nothing else; a full one answers before it. */
static bool is_counted(const uint8_t *lent, HsdAnswer wanted)
{
    const HsdRun full = {.accepted = 4095, .refused = {[HSD_NAME] = 1}};
    HsdRun run = {.error = 7, .accepted = 3, .refused = {[HSD_SHORT] = 5}}, after = run;
    after.refused[wanted.refusal]++;
    return is_night(hsd_night_add(run, lent, file.length), wanted.refusal, wanted.block, wanted.offset, 0, &after) &&
           is_night(hsd_night_add(full, lent, file.length), HSD_RUN, 0, 0, 0, &full);
}

/* A refused file by itself. Slate, marks, frame and run answer before it, other shots and placed numbers after it. */
static void check_alone(HsdAnswer wanted)
{
    const uint8_t *lent = lend(file.bytes, file.length);
    CHECK(is_a_row(&file, wanted.refusal, wanted.block, wanted.offset));
    CHECK(says_only(hsd_accept(lent, file.length), wanted.refusal, wanted.block, wanted.offset));
    CHECK(is_as(offered(slate, 0, SIZE, lent), wanted));
    CHECK(is_as(offered(other_shot, 0, SIZE, lent), wanted));
    CHECK(is_as(offered(slate, 1, SIZE, lent), wanted));
    CHECK(is(offered(bad_slate, 0, SIZE, lent), HSD_SLATE, 0, 0));
    CHECK(is(offered(slate, 2, SIZE, lent), HSD_SLATE, 0, 0));
    CHECK(is(offered(slate, 0, SIZE - 1, lent), HSD_STRIP, 0, 0));
    CHECK(is_counted(lent, wanted));
    CHECK(memcmp(lent, file.bytes, file.length) == 0);
}

/* Files end to end and their trailer. */
static struct {
    uint8_t bytes[REEL_ROOM];
    size_t size, length;
    uint32_t lengths[PARTS];
} reel;

/* The file as part `place`, counted from 0, and a good one before and after it as need be. */
static void make_reel(unsigned place)
{
    reel.size = 0;
    for (unsigned i = 0; i < PARTS; i++) {
        const File *part = i == place ? &file : &neighbour;
        memcpy(reel.bytes + reel.size, part->bytes, part->length);
        reel.lengths[i] = (uint32_t)part->length;
        reel.size += part->length;
    }
    reel.length = reel.size + put_trailer(reel.bytes + reel.size, reel.lengths, PARTS);
}

static uint8_t out[REEL_ROOM]; /* which no refused writer writes to: it stays empty */

static bool is_out_empty(void)
{
    static const uint8_t empty[REEL_ROOM];
    return memcmp(out, empty, REEL_ROOM) == 0;
}

/* Lengths that do not add up answer before the part, and the room after it. */
static void check_writer(Writer *writer, const uint8_t *lent, HsdAnswer wanted)
{
    CHECK(is_as(writer(lent, reel.size, reel.lengths, PARTS, out, REEL_ROOM), wanted));
    CHECK(is_as(writer(lent, reel.size, reel.lengths, PARTS, out, 0), wanted));
    CHECK(is(writer(lent, reel.size - 1, reel.lengths, PARTS, out, REEL_ROOM), HSD_REEL, 0, 0));
}

/* The offset counts from the part's start, wherever that stands; the trailer answers before the part. */
static void check_in_reel(unsigned place, HsdAnswer wanted)
{
    make_reel(place);
    const uint8_t *lent = lend(reel.bytes, reel.length);
    CHECK(is_reel(hsd_reel_open(lent, reel.length), wanted.refusal, wanted.block, wanted.offset, 0));
    CHECK(is_reel(hsd_reel_open(lent, reel.length - 1), HSD_REEL, 0, 0, 0));
    check_writer(hsd_reel_write, lent, wanted);
    check_writer(hsd_reel_seal, lent, wanted);
    CHECK(memcmp(lent, reel.bytes, reel.length) == 0);
}

/* Which fault it was, if a check of it has failed. */
static void tell(const Fault *fault, unsigned failures_before)
{
    const Plan *plan = &good.plan;
    const Value *value = &fault->values[0];
    if (failures != failures_before)
        fprintf(stderr, "  order %u, entries %u %u %u: %u in block %u at %u, %zu bytes: earns %u %u %u\n", plan->order,
                plan->entries[0], plan->entries[1], plan->entries[2], value->number, value->block, value->place, fault->length,
                fault->earned.refusal, fault->earned.block, fault->earned.offset);
}

static void check_fault(const Fault *fault)
{
    unsigned before = failures;
    apply(fault);
    check_alone(fault->earned);
    for (unsigned place = 0; place < PARTS; place++)
        check_in_reel(place, fault->earned);
    mend(fault);
    tell(fault, before);
}

/* Of faults with one answer a long file has the first alone: copying it takes time. */
static void check_faults(void)
{
    for (size_t i = 0; i < fault_count; i++)
        if (good.length < LONG || i == 0 || !is_as(faults[i].earned, faults[i - 1].earned))
            check_fault(&faults[i]);
    CHECK(is_out_empty());
}

/* The good file itself earns nothing, and what is refused of it is no fault of a block: 0 and 0. */
static void check_good(void)
{
    const uint8_t *lent = lend(file.bytes, file.length);
    HsdFile says = hsd_accept(lent, file.length);
    CHECK(says.refusal == HSD_FINE && says.block == 0 && says.offset == 0 && says.order == file.plan.order);
    CHECK(says.header_length == start(&file.plan, COUNTS) && says.day == slate.day && says.number == 1);
    CHECK(is(offered(other_shot, 0, SIZE, lent), HSD_OTHER_SHOT, 0, 0));
    CHECK(is(offered(other_shot, 1, SIZE, lent), HSD_OTHER_SHOT, 0, 0));
    CHECK(is(offered(slate, 1, SIZE, lent), HSD_ALREADY, 0, 0));
    CHECK(is(offered(bad_slate, 0, SIZE, lent), HSD_SLATE, 0, 0));
    CHECK(is(offered(slate, 2, SIZE, lent), HSD_SLATE, 0, 0));
    CHECK(is(offered(slate, 0, SIZE - 1, lent), HSD_STRIP, 0, 0));
    make_reel(1);
    lent = lend(reel.bytes, reel.length);
    CHECK(is_reel(hsd_reel_open(lent, reel.length), HSD_FINE, 0, 0, PARTS));
    CHECK(is_reel(hsd_reel_open(lent, reel.length - 1), HSD_REEL, 0, 0, 0));
}

/* Good files in a reel: only room and list can be at fault. */
static void check_room(Writer *writer)
{
    CHECK(is(writer(reel.bytes, reel.size, reel.lengths, PARTS, out, 0), HSD_ROOM, 0, 0));
    CHECK(is(writer(reel.bytes, reel.size, reel.lengths, PARTS, out, 1), HSD_ROOM, 0, 0));
    CHECK(is(writer(reel.bytes, reel.size, reel.lengths, 0, out, REEL_ROOM), HSD_REEL, 0, 0));
    CHECK(is(writer(reel.bytes, reel.size + 1, reel.lengths, PARTS, out, REEL_ROOM), HSD_REEL, 0, 0));
}

/* Opening a frame takes no file. */
static void check_openings(void)
{
    uint8_t marks[HSD_MARKS];
    uint16_t frame[SIZE];
    CHECK(is(hsd_open(bad_slate, marks, HSD_MARKS, frame, SIZE), HSD_SLATE, 0, 0));
    CHECK(is(hsd_open(slate, marks, HSD_MARKS - 1, frame, SIZE), HSD_SLATE, 0, 0));
    CHECK(is(hsd_open(slate, marks, HSD_MARKS, frame, SIZE - 1), HSD_STRIP, 0, 0));
    CHECK(is(hsd_open(slate, marks, HSD_MARKS, frame, SIZE), HSD_FINE, 0, 0));
}

/* Where blocks start, added up by hand. */
static void check_starts(const Plan *plan)
{
    static const size_t firsts[] = {0, 282, 332, 459, 598, 745, 1004, 1051, 1112, 1157, 1204, 1463};
    const size_t a = 10 * plan->entries[0], b = 10 * plan->entries[1], c = 4 * plan->entries[2];
    for (unsigned block = 1; block <= COUNTS; block++)
        CHECK(start(plan, block) == firsts[block - 1] + (block > 8 ? a : 0) + (block > 9 ? b : 0) + (block > 10 ? c : 0));
}

static void check_every_fault(void)
{
    static const uint32_t entries[][3] = {{0, 0, 0}, {1, 0, 0}, {0, 1, 0},    {0, 0, 1},    {4, 2, 0},
                                          {4, 2, 3}, {1, 0, 9}, {6547, 0, 0}, {0, 6549, 0}, {6547, 6549, 65535}};
    for (size_t i = 0; i < 2 * sizeof entries / sizeof *entries; i++) {
        const uint32_t *some = entries[i / 2];
        plan_faults((Plan){i % 2, {some[0], some[1], some[2]}});
        check_starts(&good.plan);
        check_good();
        check_room(hsd_reel_write);
        check_room(hsd_reel_seal);
        check_faults();
    }
}

/* The place of a fault's check: blocks 1 to 11, each with 1, 2, 3, 4, 1 again, 5, 6 and its fields in their order; then 8 to 12. */
static uint64_t rank(const Fault *fault)
{
    unsigned refusal = fault->earned.refusal;
    unsigned stage = refusal >= HSD_HEADER_SUM && refusal <= HSD_TAIL ? COUNTS : fault->earned.block;
    unsigned step = fault->is_again ? 2 * HSD_LENGTH + 1 : refusal >= HSD_SATELLITE_FIELD ? 2 * HSD_PACKED + 1 : 2 * refusal;
    return (uint64_t)(stage << 8 | step) << 32 | fault->earned.offset;
}

static bool do_meet(Value one, Value other)
{
    return one.size && other.size && one.block == other.block && one.place < other.place + other.size &&
           other.place < one.place + one.size;
}

/* Whether two faults can be in a file at once, each by bytes of its own and a fault whatever the other is. */
static bool are_apart(const Fault *one, const Fault *other)
{
    bool meet = one->length != good.length && other->length != good.length;
    for (size_t i = 0; i < 4; i++)
        meet |= do_meet(one->values[i / 2], other->values[i % 2]);
    return !meet && !one->is_lone && !other->is_lone && !is_as(one->earned, other->earned);
}

/* The first one answers. */
static void check_pair(const Fault *first, const Fault *second)
{
    unsigned before = failures;
    apply(first);
    apply(second);
    HsdFile says = hsd_accept(file.bytes, file.length);
    CHECK(says_only(says, first->earned.refusal, first->earned.block, first->earned.offset));
    mend(first);
    mend(second);
    tell(first, before);
    tell(second, before);
}

/* Two faults, in one block or in two: the one that is first in the order of checks answers. */
static void check_pairs(void)
{
    size_t pairs = 0;
    for (size_t i = 0; i < fault_count; i++)
        for (size_t j = 0; j < fault_count; j++)
            if (rank(&faults[i]) < rank(&faults[j]) && are_apart(&faults[i], &faults[j])) {
                check_pair(&faults[i], &faults[j]);
                pairs++;
            }
    CHECK(pairs > 10000);
}

/* A byte where a check looks, or any one. */
static size_t any_place(void)
{
    const Value *value = &faults[any_below((uint32_t)fault_count)].values[0];
    if (value->size == 0 || any_below(2))
        return any_below((uint32_t)good.length);
    return start(&good.plan, value->block) + value->place + any_below(value->size);
}

/* One to three bytes are changed, to any others or by one, and now and then the file is cut, or has more bytes. */
static void damage(void)
{
    memcpy(file.bytes, good.bytes, good.length);
    for (uint32_t left = 1 + any_below(3); left > 0; left--) {
        size_t at = any_place();
        uint8_t step = any_below(2) ? 1 : 255;
        file.bytes[at] = (uint8_t)(any_below(2) ? any() : (uint64_t)file.bytes[at] + step);
    }
    switch (any_below(8)) {
    case 0: file.length = any_below((uint32_t)good.length); break;
    case 1: file.length = good.length + 1 + any_below(SPARE); break;
    default: file.length = good.length;
    }
}

/* How often each row was an answer to damage. */
static unsigned seen[ROWS + 1], seen_in[HSD_TAIL + 1][COUNTS + 1];

static void check_damage(void)
{
    const uint8_t *lent = lend(file.bytes, file.length);
    HsdFile says = hsd_accept(lent, file.length);
    if (says.refusal == HSD_FINE) {
        CHECK(says.block == 0 && says.offset == 0 && says.header_length == start(&good.plan, COUNTS));
        return;
    }
    bool is_row = is_a_row(&file, says.refusal, says.block, says.offset);
    CHECK(is_row);
    CHECK(says_only(says, says.refusal, says.block, says.offset));
    seen[row_of((HsdAnswer){says.refusal, says.block, says.offset})]++;
    if (is_row && says.refusal <= HSD_TAIL)
        seen_in[says.refusal][says.block]++;
}

static void check_damages(void)
{
    for (unsigned i = 0; i < DAMAGES; i++) {
        damage();
        check_damage();
    }
}

/* No row was left out. */
static void check_seen(void)
{
    for (size_t row = 0; row < ROWS; row++)
        CHECK(seen[row] > 0);
    for (unsigned block = 1; block < COUNTS; block++)
        CHECK(seen_in[HSD_SHORT][block] > 0 && seen_in[HSD_NUMBER][block] > 0 && seen_in[HSD_LENGTH][block] > 0);
    CHECK(seen_in[HSD_CUT][COUNTS] > 0 && seen_in[HSD_TAIL][COUNTS] > 0);
}

int main(void)
{
    if (!make_memory())
        return 2;
    other_shot = bad_slate = slate;
    other_shot.day++;
    bad_slate.band = 17;
    make_good(&neighbour, (Plan){0, {0, 0, 0}});
    check_openings();
    check_every_fault();
    for (uint8_t i = 0; i < 4; i++) {
        plan_faults(i / 2 ? (Plan){i % 2, {4, 2, 3}} : (Plan){i % 2, {0, 0, 0}});
        check_pairs();
        check_damages();
    }
    check_seen();
    return checked("offsets");
}
