/* Runs of files from C, by ask 5: the totals beside every count read by itself, the extra beside a plain sum of block 10, the limits, and what a
   refused file leaves as it was. The files are made here, by document 01, and those that are refused are the samples: their folder is the argument. */
#include <float.h>
#include <math.h>

#include "good.h"
#include "memory.h"
#include "samples.h"

enum { KINDS = 5, PLACES = 64, MOST_FILES = 4096, WIDEST = 22000, EDGES = COLUMNS * LINES };

static const uint64_t MOST_COUNTS = (uint64_t)MOST_FILES * 484000000;

/* In band 13, of 12 valid bits: four below the limit, two over range, one outside the scan, an error pixel. */
static const uint16_t edges[EDGES] = {0, 1, 2, 4095, 4096, 65533, 65534, 65535};

/* A band for each number of valid bits. */
static const struct {
    uint16_t number, bits;
    const char *letters, *resolution;
} bands[] = {{3, 11, "B03", "R05"}, {13, 12, "B13", "R20"}, {7, 14, "B07", "R20"}};
enum { BANDS = sizeof bands / sizeof *bands };

static File file; /* the one that is added */

static uint64_t *total_of(HsdRun *run, size_t kind)
{
    uint64_t *const totals[KINDS] = {&run->radiance, &run->error, &run->outside, &run->over, &run->uncalibrated};
    return totals[kind];
}

/* Eight bytes of block 5: half of a value at a time. */
static void put_double(uint16_t place, uint64_t bits)
{
    const uint16_t low = file.plan.order ? 4 : 0;
    put_value(&file, (Value){5, 4, (uint16_t)(place + low), (uint32_t)bits, NULL});
    put_value(&file, (Value){5, 4, (uint16_t)(place + 4 - low), (uint32_t)(bits >> 32), NULL});
}

static void put_calibration(double gain, double constant)
{
    uint64_t bits[2];
    memcpy(&bits[0], &gain, sizeof gain);
    memcpy(&bits[1], &constant, sizeof constant);
    put_double(19, bits[0]);
    put_double(27, bits[1]);
}

static void put_band(size_t band)
{
    put_value(&file, (Value){5, 2, 3, bands[band].number, NULL});
    put_value(&file, (Value){5, 2, 13, bands[band].bits, NULL});
    put_value(&file, (Value){1, 3, 135, 0, bands[band].letters});
    put_value(&file, (Value){1, 3, 144, 0, bands[band].resolution});
}

static uint16_t two_at(size_t at)
{
    return (uint16_t)(file.bytes[at + file.plan.order] | file.bytes[at + !file.plan.order] << 8);
}

/* Where block 10 has the error pixels of its first entry; those of the others follow, 4 bytes apart. */
static size_t pixels_start(void)
{
    return start(&file.plan, 10) + 9;
}

/* A good file with the edges in it. */
static void make_file(Plan plan)
{
    make_good(&file, plan);
    put_calibration(0.5, -1);
    put_counts(&file, edges, EDGES);
}

static void make_plain(uint8_t order)
{
    make_file((Plan){order, {0, 0, 0}});
}

/* What an accepted file adds: each count as hsd_reading has it, and the entries of block 10 one by one. */
static void count_file(const HsdFile *says, HsdNight *night)
{
    const size_t counts = (size_t)says->columns * says->lines;
    uint64_t kinds[KINDS] = {0};
    for (size_t i = 0; i < counts; i++)
        kinds[hsd_reading(*says, two_at(says->header_length + 2 * i)).kind]++;
    for (size_t kind = 0; kind < KINDS; kind++)
        *total_of(&night->run, kind) += kinds[kind];
    night->run.accepted++;
    night->extra = (int64_t)kinds[HSD_ERROR_PIXEL];
    for (size_t i = 0; i < file.plan.entries[2]; i++)
        night->extra -= two_at(pixels_start() + 4 * i);
}

/* Whether a run takes another file, in the ask's words. */
static bool is_open(HsdRun run)
{
    uint64_t files = run.accepted;
    bool is_low = true;
    for (size_t i = 0; i < PLACES; i++) {
        files += run.refused[i];
        is_low = is_low && run.refused[i] <= MOST_FILES;
    }
    for (size_t kind = 0; kind < KINDS; kind++)
        is_low = is_low && *total_of(&run, kind) <= MOST_COUNTS;
    return is_low && files < MOST_FILES;
}

/* The judge: what the file and a run must give. */
static HsdNight judged(HsdRun run)
{
    HsdNight night = {.run = run};
    HsdFile says = hsd_accept(file.bytes, file.length);
    if (!is_open(run)) {
        night.refusal = HSD_RUN;
    } else if (says.refusal) {
        night.refusal = says.refusal;
        night.block = says.block;
        night.offset = says.offset;
        night.run.refused[says.refusal]++;
    } else {
        count_file(&says, &night);
    }
    return night;
}

/* Whether adding the file answers so. The run that is handed over and the file stay, and no byte beyond the file's is read. */
static bool answers(HsdRun run, const HsdNight *wanted)
{
    HsdRun before = run;
    const uint8_t *lent = lend(file.bytes, file.length);
    HsdNight night = hsd_night_add(run, lent, file.length);
    return is_night(night, wanted->refusal, wanted->block, wanted->offset, wanted->extra, &wanted->run) &&
           is_same_run(&run, &before) && memcmp(lent, file.bytes, file.length) == 0;
}

static bool is_judged(HsdRun run)
{
    HsdNight wanted = judged(run);
    return answers(run, &wanted);
}

/* A run that takes no file: RUN, and nothing else. */
static bool is_kept(HsdRun run)
{
    return answers(run, &(HsdNight){.refusal = HSD_RUN, .run = run});
}

/* A file of its own: these totals, worked out by hand, and those of the judge. */
static bool gives(HsdRun totals, int64_t extra)
{
    totals.accepted = 1;
    return answers((HsdRun){0}, &(HsdNight){.extra = extra, .run = totals}) && is_judged((HsdRun){0});
}

static HsdRun of(uint64_t radiance, uint64_t error, uint64_t outside, uint64_t over, uint64_t uncalibrated)
{
    return (HsdRun){.radiance = radiance, .error = error, .outside = outside, .over = over, .uncalibrated = uncalibrated};
}

/* How many of the edges below the limit, 0, 1, 2 and 4,095, have a finite radiance, the product rounded before the sum. */
static void check_calibrations(void)
{
    static const struct {
        double gain, constant;
        uint64_t radiance, uncalibrated;
    } all[] = {
        {0.5, -1, 4, 0},
        {-0.5, 10, 4, 0},
        {0, 0, 4, 0},
        {0x1p-1074, -0x1p-1074, 4, 0},
        {0x1p1012, 0, 4, 0},
        {0x1p1023, 0, 2, 2}, /* every kind in one file */
        {-0x1p1023, 0, 2, 2},
        {0x1p1023, 0x1p1023, 1, 3},
        {-0x1p1023, 0x1p1023, 2, 2}, /* joined to one rounding, 2 would be finite */
        {DBL_MAX, -DBL_MAX, 2, 2},
        {0x1p1013, 0, 3, 1},
        {(double)NAN, 0, 0, 4},
        {0.5, (double)NAN, 0, 4},
        {(double)INFINITY, 0, 0, 4},
        {-(double)INFINITY, 5, 0, 4},
        {0, (double)INFINITY, 0, 4},
        {(double)INFINITY, -(double)INFINITY, 0, 4},
    };
    for (size_t i = 0; i < 2 * sizeof all / sizeof *all; i++) {
        make_plain(i % 2);
        put_calibration(all[i / 2].gain, all[i / 2].constant);
        CHECK(gives(of(all[i / 2].radiance, 1, 1, 2, all[i / 2].uncalibrated), 1));
    }
}

/* Every form of a NaN, in either place. */
static void check_nans(void)
{
    static const uint64_t nans[] = {0x7ff8000000000000, 0x7ff0000000000001, 0xfff0000000000001, 0xffffffffffffffff};
    for (size_t i = 0; i < 4 * sizeof nans / sizeof *nans; i++) {
        make_plain(i % 2);
        put_double(i / 2 % 2 ? 19 : 27, nans[i / 4]);
        CHECK(gives(of(0, 1, 1, 2, 4), 1));
    }
}

/* Below the limit of 11, 12 and 14 bits are one, three and five of these. */
static void check_limits(void)
{
    static const uint16_t limits[EDGES] = {2047, 2048, 4095, 4096, 16383, 16384, 65534, 65535};
    for (size_t i = 0; i < 2 * BANDS; i++) {
        make_plain(i % 2);
        put_band(i / 2);
        put_counts(&file, limits, EDGES);
        CHECK(gives(of(2 * (i / 2) + 1, 1, 1, 5 - 2 * (i / 2), 0), 1));
        put_calibration((double)NAN, 0);
        CHECK(gives(of(0, 1, 1, 5 - 2 * (i / 2), 2 * (i / 2) + 1), 1));
    }
}

/* All 65,536 counts in one file; with the last gain those from 2,048 on are not finite. */
static void check_every_count(void)
{
    for (size_t i = 0; i < 2 * BANDS; i++) {
        const uint64_t limit = (uint64_t)1 << bands[i / 2].bits, over = 65534 - limit;
        make_plain(i % 2);
        put_band(i / 2);
        put_size(&file, 256, 256);
        for (size_t count = 0; count < 65536; count++)
            put_two(&file, start(&file.plan, COUNTS) + 2 * count, (unsigned)count);
        CHECK(gives(of(limit, 1, 1, over, 0), 1));
        put_calibration((double)NAN, 0);
        CHECK(gives(of(0, 1, 1, over, limit), 1));
        put_calibration(0x1p1013, 0);
        CHECK(gives(of(2048, 1, 1, over, limit - 2048), 1));
    }
}

/* As many counts of one kind as 16 bits do not hold. */
static void check_alike(void)
{
    static const uint16_t counts[KINDS] = {5, 65535, 65534, 4096, 5};
    for (size_t i = 0; i < 2 * KINDS; i++) {
        HsdRun totals = {0};
        make_plain(i % 2);
        put_size(&file, 256, 256);
        if (i / 2 == HSD_UNCALIBRATED)
            put_calibration((double)NAN, 0);
        for (size_t place = 0; place < 65536; place++)
            put_two(&file, start(&file.plan, COUNTS) + 2 * place, counts[i / 2]);
        *total_of(&totals, i / 2) = 65536;
        CHECK(gives(totals, i / 2 == HSD_ERROR_PIXEL ? 65536 : 0));
    }
}

/* Any counts, and as many as come before and after a power of two, in a line or in several; most calibrations leave all of them finite. */
static void check_sizes(void)
{
    static const uint16_t sizes[][2] = {{1, 1},    {2, 1},    {3, 1},    {1, 7},     {31, 1},    {16, 2},    {33, 1},   {255, 1},  {257, 1},
                                        {4095, 1}, {4096, 1}, {4097, 1}, {1, 8191},  {8192, 1},  {2731, 3},  {241, 17}, {128, 96}, {12289, 1},
                                        {21999, 1}, {1, 22000}, {22000, 3}, {22000, 8}};
    for (size_t i = 0; i < 2 * sizeof sizes / sizeof *sizes; i++) {
        make_plain(i % 2);
        put_band(i % BANDS);
        put_size(&file, sizes[i / 2][0], sizes[i / 2][1]);
        put_calibration(i % 5 ? 0.5 : 0x1p1014, -1);
        for (size_t at = start(&file.plan, COUNTS); at < file.length; at += 2)
            put_two(&file, at, any_below(8) ? any_below(1U << any_below(17)) : 65534 + any_below(2));
        CHECK(is_judged((HsdRun){0}));
    }
}

/* Block 10: the error pixels that it lists are taken from those that are there. Its lines, and the entries of blocks 8 and 9, are any. */
static void check_listed(Plan plan, uint16_t pixels, int64_t extra)
{
    make_file(plan);
    CHECK(is_judged((HsdRun){0}));
    for (size_t i = 0; i < plan.entries[2]; i++)
        put_two(&file, pixels_start() + 4 * i, pixels);
    CHECK(gives(of(4, 1, 1, 2, 0), extra));
}

static void check_extras(void)
{
    for (uint8_t order = 0; order < 2; order++) {
        check_listed((Plan){order, {0, 0, 0}}, 0, 1);
        check_listed((Plan){order, {3, 2, 0}}, 0, 1);
        check_listed((Plan){order, {0, 0, 1}}, 0, 1);
        check_listed((Plan){order, {0, 0, 1}}, 1, 0);
        check_listed((Plan){order, {0, 0, 1}}, 256, -255);
        check_listed((Plan){order, {0, 0, 1}}, 65535, -65534);
        check_listed((Plan){order, {4, 2, 3}}, 258, -773);
        check_listed((Plan){order, {0, 0, 65535}}, 1, -65534);
        check_listed((Plan){order, {0, 0, 65535}}, 65535, -4294836224);
        check_listed((Plan){order, {6547, 6549, 65535}}, 65535, -4294836224);
        /* without the one error pixel: the least extra that there is */
        put_two(&file, start(&file.plan, COUNTS) + 2 * (EDGES - 1), 0);
        CHECK(gives(of(5, 0, 1, 2, 0), -4294836225));
    }
}

/* A run that is full, or is not: said of a good file, a refused one and no bytes. */
static void check_posed(HsdRun run, bool is_full)
{
    const size_t length = file.length;
    CHECK(is_open(run) == !is_full);
    CHECK(is_full ? is_kept(run) : is_judged(run));
    file.length = length - 1;
    CHECK(is_full ? is_kept(run) : is_judged(run));
    file.length = 0;
    CHECK(is_full ? is_kept(run) : is_judged(run));
    file.length = length;
}

/* Each total at its limit, which a file may pass once, and above it: some of these are low in 32 bits, or below 0 with a sign. */
static void check_totals(void)
{
    static const uint64_t above[] = {1, 484000000, (uint64_t)1 << 32, (uint64_t)1 << 62, UINT64_MAX / 2};
    for (size_t kind = 0; kind < KINDS; kind++) {
        HsdRun run = {0};
        uint64_t *total = total_of(&run, kind);
        *total = MOST_COUNTS - 1;
        check_posed(run, false);
        *total = MOST_COUNTS;
        check_posed(run, false);
        for (size_t i = 0; i < sizeof above / sizeof *above; i++) {
            *total = MOST_COUNTS + above[i];
            check_posed(run, true);
        }
        *total = UINT64_MAX;
        check_posed(run, true);
    }
    check_posed(of(MOST_COUNTS, MOST_COUNTS, MOST_COUNTS, MOST_COUNTS, MOST_COUNTS), false);
}

/* So many files, accepted and refused, at each place of the refused ones. Sums that are low in 32 bits alone are full, too. */
static void check_files(void)
{
    static const struct {
        uint32_t accepted, refused;
        bool is_full;
    } files[] = {
        {0, 1, false},        {0, 4094, false},        {0, 4095, false},           {0, 4096, true},
        {0, 4097, true},      {0, 65536, true},        {0, UINT32_MAX, true},      {4095, 0, false},
        {4096, 0, true},      {4097, 0, true},         {UINT32_MAX, 0, true},      {4000, 95, false},
        {4000, 96, true},     {1, 4095, true},         {4095, 1, true},            {2048, 2047, false},
        {1, UINT32_MAX, true}, {UINT32_MAX, 1, true},  {4096, UINT32_MAX, true},   {1U << 31, 1U << 31, true},
    };
    for (size_t i = 0; i < sizeof files / sizeof *files; i++)
        for (size_t place = 0; place < PLACES; place++) {
            HsdRun run = {.accepted = files[i].accepted};
            run.refused[place] = files[i].refused;
            check_posed(run, files[i].is_full);
        }
}

static void fill_refused(HsdRun *run, uint32_t files)
{
    for (size_t place = 0; place < PLACES; place++)
        run->refused[place] = files;
}

/* Refusals at all places: 64 x 64 are 4,096; 64 x 2 to the 26 are 0 in 32 bits. Then nothing but ones, as numbers and as bits. */
static void check_spread(void)
{
    HsdRun run = {0};
    fill_refused(&run, 64);
    check_posed(run, true);
    run.refused[63]--;
    check_posed(run, false);
    run.accepted++;
    check_posed(run, true);
    run.accepted = 0;
    fill_refused(&run, 1U << 26);
    check_posed(run, true);
    run = of(1, 1, 1, 1, 1);
    run.accepted = 1;
    fill_refused(&run, 1);
    check_posed(run, false);
    memset(&run, 255, sizeof run);
    check_posed(run, true);
}

/* Mostly small, and now and then around a limit, or any. */
static uint64_t any_number(uint64_t limit)
{
    switch (any_below(256)) {
    case 0: return any();
    case 1: return limit - 1 + any_below(3);
    default: return any_below(8) ? 0 : any() % (limit / 128);
    }
}

static void check_any_runs(void)
{
    unsigned open = 0, all = 10000;
    for (unsigned i = 0; i < all; i++) {
        HsdRun run = {.accepted = (uint32_t)any_number(MOST_FILES)};
        for (size_t kind = 0; kind < KINDS; kind++)
            *total_of(&run, kind) = any_number(MOST_COUNTS);
        for (size_t place = 0; place < PLACES; place++)
            run.refused[place] = (uint32_t)any_number(MOST_FILES);
        open += is_open(run);
        check_posed(run, !is_open(run));
    }
    CHECK(open > all / 8 && open < all - all / 8);
}

/* Adds the file to a run that grows. */
static bool grows(HsdRun *run)
{
    HsdRun before = *run;
    *run = hsd_night_add(before, file.bytes, file.length).run;
    return is_judged(before);
}

/* From zeros on: 4,095 files, every eighth of them refused, then one more, and then there is no room for another. */
static void check_whole_run(uint8_t order)
{
    HsdRun run = {0};
    make_plain(order);
    for (unsigned i = 0; i < MOST_FILES; i++) {
        CHECK(i < MOST_FILES - 1 || run.accepted + run.refused[HSD_CUT] == 4095);
        file.length -= i % 8 == 3;
        CHECK(grows(&run));
        file.length += i % 8 == 3;
    }
    HsdRun wanted = {14336, 3584, 3584, 7168, 0, 3584, {0}};
    wanted.refused[HSD_CUT] = 512;
    CHECK(is_same_run(&run, &wanted));
    check_posed(run, true);
}

/* A refused file of the samples: its own refusal, one more of that number, no extra; and RUN before it, if the run is full. */
static void check_refused_file(HsdRun *run, const char *name, HsdAnswer answer)
{
    Bytes bad = sample(name);
    memcpy(file.bytes, bad.bytes, bad.length);
    file.length = bad.length;
    HsdNight wanted = {.refusal = answer.refusal, .block = answer.block, .offset = answer.offset, .run = *run};
    wanted.run.refused[answer.refusal]++;
    CHECK(answers(*run, &wanted));
    CHECK(is_kept((HsdRun){.accepted = MOST_FILES}));
    CHECK(is_kept((HsdRun){.over = MOST_COUNTS + 1}));
    *run = hsd_night_add(*run, file.bytes, file.length).run;
}

/* All of them, in one run. */
static void check_refused(void)
{
    static Refused all[REFUSED_ROOM];
    const size_t count = refused_samples(all);
    HsdRun run = of(1, 2, 3, 4, 5), wanted = run;
    for (size_t i = 0; i < count; i++) {
        CHECK(all[i].answer.refusal < PLACES);
        check_refused_file(&run, all[i].name, all[i].answer);
        wanted.refused[all[i].answer.refusal]++;
    }
    CHECK(is_same_run(&run, &wanted));
}

/* The greatest file, of 22,000 x 22,000 counts, nearly all of them 0; a run whose radiances it brings beyond their limit takes no more. */
static void check_greatest(void)
{
    make_plain(0);
    put_size(&file, WIDEST, WIDEST);
    const size_t header = start(&file.plan, COUNTS), room = (file.length + GUARD - 1) / GUARD * GUARD;
    uint8_t *memory = mmap(NULL, room + GUARD, PROT_READ | PROT_WRITE, MAP_PRIVATE | MAP_ANONYMOUS | MAP_NORESERVE, -1, 0);
    CHECK(memory != MAP_FAILED && mprotect(memory + room, GUARD, PROT_NONE) == 0);
    if (memory == MAP_FAILED)
        return;
    uint8_t *bytes = memory + room - file.length;
    memcpy(bytes, file.bytes, header);
    memset(bytes + header, 255, 2);
    memset(bytes + file.length - 4, 255, 4);
    bytes[file.length - 2] = 254;
    HsdRun run = of(MOST_COUNTS, 0, 0, 0, 0), wanted = of(MOST_COUNTS + 483999997, 2, 1, 0, 0);
    wanted.accepted = 1;
    HsdNight night = hsd_night_add(run, bytes, file.length);
    CHECK(is_night(night, HSD_FINE, 0, 0, 2, &wanted));
    CHECK(is_night(hsd_night_add(night.run, bytes, file.length), HSD_RUN, 0, 0, 0, &wanted));
    munmap(memory, room + GUARD);
}

static void check_runs(void)
{
    for (uint8_t order = 0; order < 2; order++) {
        make_file((Plan){order, {1, 2, 3}});
        check_totals();
        check_files();
        check_spread();
        check_whole_run(order);
    }
    make_plain(1);
    check_any_runs();
}

int main(int count, char **words)
{
    if (count != 2 || !make_memory())
        return 2;
    folder = words[1];
    check_calibrations();
    check_nans();
    check_limits();
    check_every_count();
    check_alike();
    check_sizes();
    check_extras();
    check_runs();
    check_refused();
    check_greatest();
    return checked("night");
}
