/* Why a file is not of a slate, from C, by ask 6: each of its nine parts off by one, alone and with any others, over files that are made here by document 01;
   that offering answers alike; bad slates; and refused files, which are the samples: their folder is the argument. */
#include "good.h"
#include "memory.h"
#include "samples.h"

/* The ask's parts, in its order: their numbers in hsd.h are one higher. */
enum { SATELLITE, DAY, TIMELINE, BAND, AREA, WIDTH, SEGMENTS, HEIGHT, FIRST, PARTS };

/* The range of each by document 01, timelines and areas counted from 0. */
static const struct {
    uint32_t least, most;
} ranges[PARTS] = {{8, 9}, {51544, 88068}, {0, 143}, {1, 16}, {0, 48}, {1, 22000}, {1, 99}, {1, 22000}, {1, 22000}};

enum { MOST_LINES = 22000, MOST_COUNTS = 22000 * 22000, MOST_IN_FILE = (GREATEST_HEADER - 1463) / 2 };

/* What a file says, or a slate, which has neither a number nor a first line. */
typedef struct Shot {
    uint32_t is[PARTS];
    uint32_t number;
} Shot;

static const Shot plain = {{8, 57210, 12, 13, 0, 4, 3, 2, 3}, 2};

static File file;
static uint16_t *frame; /* of any size; only what is written to takes memory */

static bool is_in_range(const Shot *shot, unsigned part)
{
    return ranges[part].least <= shot->is[part] && shot->is[part] <= ranges[part].most;
}

static bool is_good_slate(const Shot *slate)
{
    for (unsigned part = 0; part < FIRST; part++)
        if (!is_in_range(slate, part))
            return false;
    return slate->is[SEGMENTS] * slate->is[HEIGHT] <= MOST_LINES;
}

/* And one that there is room for here. */
static bool is_good_file(const Shot *says)
{
    for (unsigned part = 0; part < PARTS; part++)
        if (!is_in_range(says, part))
            return false;
    return 1 <= says->number && says->number <= says->is[SEGMENTS] && says->is[FIRST] + says->is[HEIGHT] - 1 <= MOST_LINES &&
           says->is[WIDTH] * says->is[HEIGHT] <= MOST_IN_FILE;
}

/* FLDK, JP01 to JP04, R301 to R304, R401 to R420, R501 to R520. */
static const char *letters_of(uint32_t area)
{
    static char letters[16];
    const unsigned starts[] = {1, 5, 9, 29}, group = area >= 29 ? 3 : area >= 9 ? 2 : area >= 5 ? 1 : 0;
    const char *const heads[] = {"JP", "R3", "R4", "R5"};
    if (area == 0)
        return "FLDK";
    snprintf(letters, sizeof letters, "%s%02u", heads[group], (area - starts[group] + 1) % 100);
    return letters;
}

static uint32_t area_of(const char *letters)
{
    return HSD_AREA(letters[0], letters[1], letters[2], letters[3]);
}

/* What a part is in an answer, a slate or a header. */
static uint32_t value_of(const Shot *shot, unsigned part)
{
    const uint32_t is = shot->is[part];
    switch (part) {
    case TIMELINE: return is / 6 * 100 + is % 6 * 10;
    case AREA: return area_of(letters_of(is));
    default: return is;
    }
}

/* From 2000 to 2099 every fourth year is a leap year. */
static unsigned date_of(uint32_t day)
{
    unsigned lengths[] = {31, 29, 31, 30, 31, 30, 31, 31, 30, 31, 30, 31};
    unsigned year = 2000, month = 0, left = day - 51544;
    for (; left >= lengths[month]; month = (month + 1) % 12) {
        left -= lengths[month];
        year += month == 11;
        lengths[1] = year % 4 ? 28 : 29;
    }
    return 10000 * year + 100 * (month + 1) + left + 1;
}

/* Even segments, and the same beyond the last one. */
static void put_heights(HsdSlate *slate, uint32_t height)
{
    for (size_t k = 0; k < HSD_MARKS; k++)
        slate->heights[k] = (uint16_t)height;
}

static HsdSlate slate_of(const Shot *shot)
{
    HsdSlate slate = {.satellite = (uint8_t)value_of(shot, SATELLITE),
                      .total = (uint8_t)value_of(shot, SEGMENTS),
                      .timeline = (uint16_t)value_of(shot, TIMELINE),
                      .band = (uint16_t)value_of(shot, BAND),
                      .columns = (uint16_t)value_of(shot, WIDTH),
                      .day = value_of(shot, DAY),
                      .area = value_of(shot, AREA)};
    put_heights(&slate, value_of(shot, HEIGHT));
    return slate;
}

/* The name, but for the numbers of the segment. */
static void put_name(const Shot *says)
{
    char name[128] = {0};
    const uint32_t band = says->is[BAND];
    snprintf(name, sizeof name, "HS_H%02u_%08u_%04u_B%02u_%s_R%s_S0102.DAT", says->is[SATELLITE], date_of(says->is[DAY]),
             value_of(says, TIMELINE), band, letters_of(says->is[AREA]), band == 3 ? "05" : band <= 4 ? "10" : "20");
    put_value(&file, (Value){1, 128, 114, 0, name});
}

/* Makes the good file, whose byte order and entries stay, one that says this. */
static void put_shot(const Shot *says)
{
    const uint32_t band = says->is[BAND];
    put_size(&file, says->is[WIDTH], says->is[HEIGHT]);
    put_value(&file, (Value){1, 10, 6, 0, says->is[SATELLITE] == 8 ? "Himawari-8" : "Himawari-9"});
    put_value(&file, (Value){1, 4, 38, 0, letters_of(says->is[AREA])});
    put_value(&file, (Value){1, 2, 44, value_of(says, TIMELINE), NULL});
    put_value(&file, (Value){5, 2, 3, band, NULL});
    put_value(&file, (Value){5, 2, 13, band == 7 ? 14 : band >= 10 && band <= 15 ? 12 : 11, NULL});
    put_name(says);
    put_segment(&file, says->number, says->is[SEGMENTS], says->is[FIRST]);
}

/* The judge: the first part in which the two differ, the slate's first line being that of the file's number. */
static HsdWhy judged(Shot slate, const Shot *says)
{
    slate.is[FIRST] = 1 + (says->number - 1) * slate.is[HEIGHT];
    for (unsigned part = 0; part < PARTS; part++)
        if (slate.is[part] != says->is[part])
            return (HsdWhy){.part = (uint8_t)(part + 1), .slate = value_of(&slate, part), .file = value_of(says, part)};
    return (HsdWhy){.part = HSD_WHY_AGREES};
}

/* Whether this is answered, in every member, of the file as it stands, and all that was given is as it was. */
static bool answers(HsdSlate slate, HsdWhy wanted)
{
    const HsdSlate before = slate;
    const uint8_t *lent = lend(file.bytes, file.length);
    return is_same_why(hsd_why(slate, lent, file.length), wanted) && is_same_slate(&slate, &before) &&
           memcmp(lent, file.bytes, file.length) == 0;
}

static bool is_refused(HsdSlate slate, HsdAnswer answer)
{
    return answers(slate, (HsdWhy){.refusal = answer.refusal, .block = answer.block, .offset = answer.offset});
}

/* What an offer of the file answers: marks from one segment to another are in, and marks_length and size are told. */
static uint8_t offered(HsdSlate slate, unsigned from, unsigned to, size_t marks_length, size_t size)
{
    uint8_t marks[HSD_MARKS + 1] = {0};
    for (unsigned number = from; number <= to; number++)
        marks[number - 1] = 1;
    return hsd_offer(slate, marks, marks_length, frame, size, file.bytes, file.length).refusal;
}

/* OTHER SHOT is answered exactly where they differ, the record and the frame being right, and never where they agree. */
static void check_offers(HsdSlate slate, unsigned number, bool agrees)
{
    const size_t size = (size_t)slate.total * slate.heights[0] * slate.columns;
    CHECK(offered(slate, 1, 0, HSD_MARKS, size) == (agrees ? HSD_FINE : HSD_OTHER_SHOT));
    CHECK(offered(slate, 1, slate.total, HSD_MARKS, size) == (agrees ? HSD_ALREADY : HSD_OTHER_SHOT));
    if (number > 1 && number <= slate.total) {
        CHECK(offered(slate, 1, number - 1, HSD_MARKS, size) == (agrees ? HSD_FINE : HSD_OTHER_SHOT));
        CHECK(offered(slate, number, number, HSD_MARKS, size) == (agrees ? HSD_ALREADY : HSD_OTHER_SHOT));
    }
    CHECK(offered(slate, 1, 0, HSD_MARKS, size - 1) == HSD_STRIP);
    CHECK(offered(slate, 1, 0, HSD_MARKS, size + 1) == HSD_STRIP);
    CHECK(offered(slate, 1, 0, HSD_MARKS, 0) == HSD_STRIP);
    CHECK(offered(slate, 1, 0, HSD_MARKS - 1, size) == HSD_SLATE);
    CHECK(offered(slate, 1, 0, HSD_MARKS + 1, size) == HSD_SLATE);
    if (slate.total < HSD_MARKS)
        CHECK(offered(slate, slate.total + 1U, HSD_MARKS, HSD_MARKS, size) == HSD_SLATE);
}

/* A good slate and a good file. */
static HsdWhy check_pair(const Shot *slate, const Shot *says)
{
    const HsdWhy wanted = judged(*slate, says);
    put_shot(says);
    CHECK(hsd_accept(file.bytes, file.length).refusal == HSD_FINE);
    CHECK(answers(slate_of(slate), wanted));
    check_offers(slate_of(slate), says->number, wanted.part == HSD_WHY_AGREES);
    return wanted;
}

/* Moves a part on one side. The slate's first line moves with the file's number. */
static void move(Shot *slate, Shot *says, unsigned part, uint32_t by, bool on_slate)
{
    if (part == FIRST && on_slate)
        says->number += by;
    else
        (on_slate ? slate : says)->is[part] += by;
}

/* A part alone is off by one, either way where its range has room: how often it has. */
static unsigned check_alone(const Shot *shot, unsigned part)
{
    unsigned moved = 0;
    for (unsigned way = 0; way < 4; way++) {
        Shot slate = *shot, says = *shot;
        move(&slate, &says, part, way % 2 ? 1 : UINT32_MAX, way / 2);
        if (!is_good_slate(&slate) || !is_good_file(&says))
            continue;
        CHECK(check_pair(&slate, &says).part == part + 1);
        moved++;
    }
    return moved;
}

/* In the middle of every range there is room for all ways; at its ends for half of them, and for what the bounds of segments leave. */
static void check_each_alone(void)
{
    static const struct {
        Shot shot;
        unsigned moved[PARTS];
    } all[] = {
        {{{8, 57210, 12, 13, 0, 4, 3, 2, 3}, 2}, {2, 4, 4, 4, 2, 4, 4, 4, 4}},
        {{{9, 57447, 71, 7, 20, 257, 98, 3, 145}, 49}, {2, 4, 4, 4, 4, 4, 4, 4, 4}},
        {{{8, 51544, 0, 1, 1, 1, 1, 1, 1}, 1}, {2, 2, 2, 2, 4, 2, 2, 2, 1}},
        {{{9, 88068, 143, 16, 48, 22000, 99, 4, 393}, 99}, {2, 2, 2, 2, 2, 2, 1, 4, 3}},
        {{{8, 57387, 72, 3, 8, 4, 1, 22000, 1}, 1}, {2, 4, 4, 4, 4, 4, 1, 2, 0}},
        {{{9, 57388, 1, 4, 28, 2, 88, 250, 21751}, 88}, {2, 4, 4, 4, 4, 4, 2, 2, 2}},
    };
    for (size_t i = 0; i < sizeof all / sizeof *all; i++) {
        CHECK(check_pair(&all[i].shot, &all[i].shot).part == HSD_WHY_AGREES);
        for (unsigned part = 0; part < PARTS; part++)
            CHECK(check_alone(&all[i].shot, part) == all[i].moved[part]);
    }
}

/* Every value of a range that is short, beside its neighbours. */
static void check_short_ranges(void)
{
    for (unsigned part = 0; part < PARTS; part++) {
        Shot shot = plain;
        shot.is[part] = ranges[part].least;
        for (; ranges[part].most < 200 && is_in_range(&shot, part); shot.is[part]++) {
            shot.number = part == SEGMENTS ? 1 : 2;
            shot.is[FIRST] = 1 + (shot.number - 1) * shot.is[HEIGHT];
            CHECK(check_pair(&shot, &shot).part == HSD_WHY_AGREES);
            check_alone(&shot, part);
        }
    }
}

/* Every day beside the next one. */
static void check_days(void)
{
    Shot slate = plain, says = plain;
    for (uint32_t day = ranges[DAY].least; day < ranges[DAY].most; day++) {
        slate.is[DAY] = day;
        says.is[DAY] = day + 1;
        put_shot(&says);
        CHECK(answers(slate_of(&slate), (HsdWhy){.part = HSD_WHY_DAY, .slate = day, .file = day + 1}));
        CHECK(answers(slate_of(&says), (HsdWhy){.part = HSD_WHY_AGREES}));
    }
}

/* Some parts at once, by the bits of a set: the first one answers, whichever side (or one after the other) and way the others are off. */
static void check_set(unsigned set, unsigned side, bool up)
{
    Shot slate = plain, says;
    unsigned first = PARTS;
    slate.is[AREA] = 6;
    slate.is[SATELLITE] = up ? 8 : 9;
    says = slate;
    for (unsigned part = PARTS; part-- > 0;)
        if (set >> part & 1) {
            move(&slate, &says, part, up ? 1 : UINT32_MAX, side == 2 ? part % 2 : side);
            first = part;
        }
    CHECK(is_good_slate(&slate) && is_good_file(&says));
    CHECK(check_pair(&slate, &says).part == first + 1);
}

/* Every pair is among these. */
static void check_together(void)
{
    for (unsigned set = 1; set < 1U << PARTS; set++)
        for (unsigned way = 0; way < 6; way++)
            check_set(set, way / 2, way % 2);
}

/* Of small sizes, and else any. */
static Shot any_shot(void)
{
    static const uint32_t values[FIRST] = {2, 36525, 144, 16, 49, 8, 99, 5};
    Shot shot;
    for (unsigned part = 0; part < FIRST; part++)
        shot.is[part] = ranges[part].least + any_below(values[part]);
    shot.number = 1 + any_below(shot.is[SEGMENTS]);
    shot.is[FIRST] = 1 + (shot.number - 1) * shot.is[HEIGHT];
    return shot;
}

/* Now and then another part is that of another shot: each answer is given often. */
static void check_any(void)
{
    const unsigned all = 5000;
    unsigned given[PARTS + 1] = {0};
    for (unsigned i = 0; i < all; i++) {
        Shot slate = any_shot(), says = slate, other = any_shot();
        for (unsigned part = 0; part < PARTS; part++)
            if (any_below(8) == 0)
                says.is[part] = other.is[part];
        if (is_good_file(&says))
            given[check_pair(&slate, &says).part]++;
    }
    for (unsigned part = 0; part <= PARTS; part++)
        CHECK(given[part] > all / 100);
}

/* The slate of the plain shot, but for one part. */
static HsdSlate slate_but(unsigned part, uint32_t value)
{
    HsdSlate slate = slate_of(&plain);
    switch (part) {
    case SATELLITE: slate.satellite = (uint8_t)value; break;
    case DAY: slate.day = value; break;
    case TIMELINE: slate.timeline = (uint16_t)value; break;
    case BAND: slate.band = (uint16_t)value; break;
    case AREA: slate.area = value; break;
    case WIDTH: slate.columns = (uint16_t)value; break;
    case SEGMENTS: slate.total = (uint8_t)value; break;
    default: put_heights(&slate, value); break;
    }
    return slate;
}

/* Said of a file that agrees in all else, of one that differs in all, of a refused one and of no bytes. */
static void check_bad_slate(HsdSlate slate)
{
    static const Shot unlike = {{9, 57211, 13, 12, 1, 5, 4, 1, 3}, 2};
    const HsdAnswer bad = {.refusal = HSD_SLATE};
    put_shot(&unlike);
    CHECK(is_refused(slate, bad));
    put_shot(&plain);
    CHECK(is_refused(slate, bad));
    file.length--;
    CHECK(is_refused(slate, bad));
    file.length = 0;
    CHECK(is_refused(slate, bad));
}

/* Values just out of the ranges, and some that a narrower number would have within them. The plain shot has three segments: 3 x 7,334 lines are too many. */
static void check_bad_slates(void)
{
    static const struct {
        unsigned part;
        uint32_t value;
    } bad[] = {
        {SATELLITE, 0},   {SATELLITE, 7},   {SATELLITE, 10},  {SATELLITE, 255}, {DAY, 0},        {DAY, 51543},
        {DAY, 88069},     {DAY, 122746},    {DAY, UINT32_MAX}, {TIMELINE, 5},   {TIMELINE, 60},  {TIMELINE, 201},
        {TIMELINE, 2360}, {TIMELINE, 2400}, {TIMELINE, 65535}, {BAND, 0},       {BAND, 17},      {BAND, 269},
        {BAND, 65535},    {WIDTH, 0},       {WIDTH, 22001},   {WIDTH, 65535},   {SEGMENTS, 0},   {SEGMENTS, 100},
        {SEGMENTS, 255},  {HEIGHT, 0},      {HEIGHT, 7334},   {HEIGHT, 22001},  {HEIGHT, 65535},
    };
    static const char areas[][5] = {"FLDX", "fldk", "GLDK", "JP00", "JP05", "JP1 ", "R201", "R300", "R305", "R400",
                                    "R421", "R41A", "R500", "R521", "R601", "HNDK", "DKLF", ""};
    for (size_t i = 0; i < sizeof bad / sizeof *bad; i++)
        check_bad_slate(slate_but(bad[i].part, bad[i].value));
    for (size_t i = 0; i < sizeof areas / sizeof *areas; i++)
        check_bad_slate(slate_but(AREA, area_of(areas[i])));
    check_bad_slate((HsdSlate){0});
}

static void take_sample(const char *name)
{
    Bytes bytes = sample(name);
    memcpy(file.bytes, bytes.bytes, bytes.length);
    file.length = bytes.length;
}

/* The night that the ask is about, and what else the samples have. */
static void check_strays(void)
{
    static const Shot night = {{8, 57210, 12, 13, 0, 64, 4, 3, 0}, 0};
    const HsdSlate slate = slate_of(&night);
    take_sample("segment-3");
    CHECK(answers(slate, (HsdWhy){.part = HSD_WHY_AGREES}));
    take_sample("stray-late");
    CHECK(answers(slate, (HsdWhy){.part = HSD_WHY_TIMELINE, .slate = 200, .file = 210}));
    take_sample("stray-day");
    CHECK(answers(slate, (HsdWhy){.part = HSD_WHY_DAY, .slate = 57210, .file = 57211}));
    take_sample("good-1");
    CHECK(answers(slate, (HsdWhy){.part = HSD_WHY_COLUMNS, .slate = 64, .file = 4}));
}

/* A refused file gets its own refusal, whatever else is in it and whichever good slate it is asked about. */
static void check_refused(void)
{
    static const Shot samples = {{8, 57210, 12, 13, 0, 4, 2, 2, 0}, 0};
    static Refused all[REFUSED_ROOM];
    const size_t count = refused_samples(all);
    for (size_t i = 0; i < count; i++) {
        const Shot other = any_shot();
        take_sample(all[i].name);
        CHECK(is_refused(slate_of(&samples), all[i].answer));
        CHECK(is_refused(slate_of(&other), all[i].answer));
        CHECK(is_refused(slate_but(BAND, 0), (HsdAnswer){.refusal = HSD_SLATE}));
    }
}

/* Every length but the right one, from no bytes on. */
static void check_lengths(void)
{
    put_shot(&plain);
    const size_t length = file.length;
    for (file.length = 0; file.length < length + SPARE; file.length++) {
        HsdFile found = hsd_accept(file.bytes, file.length);
        CHECK((found.refusal == HSD_FINE) == (file.length == length));
        CHECK(is_refused(slate_of(&plain), (HsdAnswer){found.refusal, found.block, found.offset}));
    }
    file.length = 0;
    CHECK(is_refused(slate_of(&plain), (HsdAnswer){HSD_SHORT, 1, 0}));
}

/* Room for the greatest frame, and for one count more. */
static bool make_frame(void)
{
    const size_t size = 2 * ((size_t)MOST_COUNTS + 1);
    void *memory = mmap(NULL, size, PROT_READ | PROT_WRITE, MAP_PRIVATE | MAP_ANONYMOUS | MAP_NORESERVE, -1, 0);
    frame = memory;
    return memory != MAP_FAILED;
}

int main(int count, char **words)
{
    if (count != 2 || !make_memory() || !make_frame())
        return 2;
    folder = words[1];
    for (uint8_t order = 0; order < 2; order++) {
        make_good(&file, (Plan){order, {1, 2, 3}});
        check_each_alone();
        check_short_ranges();
        check_days();
        check_together();
        check_any();
        check_bad_slates();
        check_lengths();
    }
    check_strays();
    check_refused();
    return checked("why");
}
