/* Uneven segments from C, by ask 7: six lines cut into 3, 1 and 2 in every order, cuts at random, heights of 0, sums at their limit and beyond 16 bits.
   Each function is asked twice, with zeros beyond the last height and with any numbers there, and must answer alike. The files are made here, by
   document 01. */
#include "answers.h"
#include "good.h"
#include "test.h"

enum { MOST_LINES = 22000, ROOM = MOST_LINES, WIDEST = 4, OUTSIDE = 65534, UNTOUCHED = 0x5a5a };

/* Everything that a call may write to. */
typedef struct State {
    uint8_t marks[HSD_MARKS];
    uint16_t frame[ROOM + 1];
    uint16_t out[WIDEST + 1];
} State;

/* The twin is a frame whose slate is littered. */
static State state, twin;
static File file;
static uint16_t sky[ROOM]; /* what a whole frame shows */
static uint16_t litter[HSD_MARKS];
static const uint16_t leader[WIDEST] = {60001, 60002, 60003, 60004};

/* The shot of good files, cut so. */
static HsdSlate cut_into(unsigned total, const uint16_t *heights, uint16_t columns)
{
    HsdSlate slate = {.satellite = 8, .total = (uint8_t)total, .timeline = 200, .band = 13, .columns = columns, .day = 57210,
                      .area = HSD_AREA('F', 'L', 'D', 'K')};
    memcpy(slate.heights, heights, total * sizeof *heights);
    return slate;
}

/* The same slate: what stands beyond the last height is none of it. */
static HsdSlate littered(const HsdSlate *slate)
{
    HsdSlate same = *slate;
    memcpy(same.heights + slate->total, litter + slate->total, (size_t)(HSD_MARKS - slate->total) * sizeof *litter);
    return same;
}

/* Where a segment begins; the one after the last begins below the frame. */
static unsigned first_line(const HsdSlate *slate, unsigned number)
{
    unsigned line = 1;
    for (unsigned k = 0; k < number - 1; k++)
        line += slate->heights[k];
    return line;
}

static unsigned lines_of(const HsdSlate *slate)
{
    return first_line(slate, slate->total + 1U) - 1;
}

/* In counts, as many as there are; a sum that is too great is taken in 16 bits, as it must not be. */
static size_t size_of(const HsdSlate *slate)
{
    const size_t size = (size_t)(uint16_t)lines_of(slate) * slate->columns;
    return size <= ROOM ? size : ROOM + 1;
}

static bool is_alike(void)
{
    return memcmp(&state, &twin, sizeof state) == 0;
}

static HsdAnswer opened(const HsdSlate *slate)
{
    HsdAnswer answer = hsd_open(*slate, state.marks, HSD_MARKS, state.frame, size_of(slate));
    HsdAnswer same = hsd_open(littered(slate), twin.marks, HSD_MARKS, twin.frame, size_of(slate));
    CHECK(is(same, answer.refusal, answer.block, answer.offset) && is_alike());
    return answer;
}

static HsdAnswer offered(const HsdSlate *slate)
{
    const size_t size = size_of(slate);
    HsdAnswer answer = hsd_offer(*slate, state.marks, HSD_MARKS, state.frame, size, file.bytes, file.length);
    HsdAnswer same = hsd_offer(littered(slate), twin.marks, HSD_MARKS, twin.frame, size, file.bytes, file.length);
    CHECK(is(same, answer.refusal, answer.block, answer.offset) && is_alike());
    return answer;
}

static HsdWhy asked(const HsdSlate *slate)
{
    HsdWhy answer = hsd_why(*slate, file.bytes, file.length);
    CHECK(is_same_why(hsd_why(littered(slate), file.bytes, file.length), answer));
    return answer;
}

/* How many counts of a line there are, and these at the front of `out`. */
static size_t looked_up(const HsdSlate *slate, unsigned line, size_t leader_length)
{
    const HsdSlate same = littered(slate);
    const size_t size = size_of(slate);
    memset(state.out, UNTOUCHED & 255, sizeof state.out);
    memset(twin.out, UNTOUCHED & 255, sizeof twin.out);
    size_t length = hsd_line(*slate, state.marks, HSD_MARKS, state.frame, size, leader, leader_length, (uint16_t)line,
                             state.out, slate->columns);
    CHECK(length == hsd_line(same, twin.marks, HSD_MARKS, twin.frame, size, leader, leader_length, (uint16_t)line, twin.out,
                             slate->columns));
    CHECK(memcmp(state.out, twin.out, sizeof state.out) == 0);
    return length;
}

static bool is_untouched(void)
{
    size_t same = 0;
    for (size_t i = 0; i <= WIDEST; i++)
        same += state.out[i] == UNTOUCHED;
    return same == WIDEST + 1;
}

static bool is_line(const HsdSlate *slate, unsigned line, bool in)
{
    const uint16_t *expected = in ? sky + (size_t)(line - 1) * slate->columns : leader;
    return looked_up(slate, line, slate->columns) == slate->columns &&
           memcmp(state.out, expected, slate->columns * sizeof *expected) == 0 && state.out[slate->columns] == UNTOUCHED;
}

/* Line by line: the segment that covers one goes on for as many lines as it is high. */
static void check_lines(const HsdSlate *slate)
{
    unsigned number = 1, left = slate->heights[0];
    for (unsigned line = 1; line <= lines_of(slate); line++, left--) {
        if (left == 0)
            left = slate->heights[number++];
        CHECK(is_line(slate, line, state.marks[number - 1]));
    }
}

/* The lines around each border, without a leader; and those that are none. */
static void check_borders(const HsdSlate *slate)
{
    const unsigned none[] = {0, lines_of(slate) + 1, 65535};
    for (unsigned number = 1; number <= slate->total; number++) {
        const size_t wanted = state.marks[number - 1] ? slate->columns : 0;
        CHECK(looked_up(slate, first_line(slate, number), slate->columns - 1U) == wanted);
        CHECK(looked_up(slate, first_line(slate, number + 1) - 1, slate->columns - 1U) == wanted);
        CHECK(wanted || is_untouched());
    }
    for (size_t i = 0; i < sizeof none / sizeof *none; i++)
        CHECK(looked_up(slate, none[i], slate->columns) == 0 && is_untouched());
}

/* The segment's part of the sky if it is in, and else nothing but 65,534. */
static bool is_shown(const HsdSlate *slate, unsigned number)
{
    const size_t from = (size_t)(first_line(slate, number) - 1) * slate->columns;
    const size_t to = (size_t)(first_line(slate, number + 1) - 1) * slate->columns;
    size_t right = 0;
    for (size_t i = from; i < to; i++)
        right += state.frame[i] == (state.marks[number - 1] ? sky[i] : OUTSIDE);
    return right == to - from;
}

/* These marks, and every segment as they say. */
static void check_state(const HsdSlate *slate, const uint8_t *marks)
{
    CHECK(memcmp(state.marks, marks, HSD_MARKS) == 0);
    for (unsigned number = 1; number <= slate->total; number++)
        CHECK(is_shown(slate, number));
}

/* The file of a segment: the lines of the sky that it covers. */
static void make_segment(const HsdSlate *slate, unsigned number)
{
    const unsigned first = first_line(slate, number), lines = slate->heights[number - 1];
    put_size(&file, slate->columns, lines);
    put_segment(&file, number, slate->total, first);
    put_counts(&file, sky + (size_t)(first - 1) * slate->columns, (size_t)lines * slate->columns);
}

/* With other litter for each frame. */
static void check_opened(const HsdSlate *slate)
{
    static const uint8_t none[HSD_MARKS];
    for (size_t i = 0; i < HSD_MARKS; i++)
        litter[i] = (uint16_t)any();
    memset(state.marks, 1, HSD_MARKS);
    memset(twin.marks, 1, HSD_MARKS);
    CHECK(is(opened(slate), HSD_FINE, 0, 0));
    check_state(slate, none);
}

/* Placed once, and not twice. */
static void check_offer(const HsdSlate *slate, unsigned number)
{
    uint8_t marks[HSD_MARKS];
    memcpy(marks, state.marks, HSD_MARKS);
    marks[number - 1] = 1;
    make_segment(slate, number);
    CHECK(asked(slate).part == HSD_WHY_AGREES);
    CHECK(is(offered(slate), HSD_FINE, 0, 0));
    check_state(slate, marks);
    CHECK(is(offered(slate), HSD_ALREADY, 0, 0));
    check_state(slate, marks);
}

/* All orders of three things. */
static const uint8_t orders[][3] = {{0, 1, 2}, {0, 2, 1}, {1, 0, 2}, {1, 2, 0}, {2, 0, 1}, {2, 1, 0}};
enum { ORDERS = sizeof orders / sizeof *orders };

static HsdSlate cut_in_order(size_t order)
{
    static const uint16_t lines[] = {3, 1, 2};
    const uint16_t heights[] = {lines[orders[order][0]], lines[orders[order][1]], lines[orders[order][2]]};
    return cut_into(3, heights, WIDEST);
}

/* Every line after every offer: so each segment is missing in turn, and every two of them. */
static void check_three(const HsdSlate *slate, const uint8_t *order)
{
    check_opened(slate);
    for (unsigned i = 0; i <= 3; i++) {
        check_lines(slate);
        check_borders(slate);
        if (i < 3)
            check_offer(slate, order[i] + 1U);
    }
}

static void check_cuts(void)
{
    for (size_t i = 0; i < ORDERS * ORDERS; i++) {
        const HsdSlate slate = cut_in_order(i / ORDERS);
        check_three(&slate, orders[i % ORDERS]);
    }
}

/* What is asked of the file as it stands: this part differs, and an offer of it is refused and changes nothing. */
static void check_other(const HsdSlate *slate, HsdWhy wanted)
{
    const State before = state;
    CHECK(is_same_why(asked(slate), wanted));
    CHECK(is(offered(slate), wanted.part == HSD_WHY_AGREES ? HSD_FINE : HSD_OTHER_SHOT, 0, 0));
    CHECK(wanted.part == HSD_WHY_AGREES || memcmp(&state, &before, sizeof state) == 0);
}

/* The judge of a segment of another cut into as many. */
static HsdWhy judged(const HsdSlate *slate, const HsdSlate *other, unsigned number)
{
    const unsigned height = slate->heights[number - 1], other_height = other->heights[number - 1];
    const unsigned first = first_line(slate, number), other_first = first_line(other, number);
    if (height != other_height)
        return (HsdWhy){.part = HSD_WHY_LINES, .slate = height, .file = other_height};
    if (first != other_first)
        return (HsdWhy){.part = HSD_WHY_FIRST_LINE, .slate = first, .file = other_first};
    return (HsdWhy){.part = HSD_WHY_AGREES};
}

static void check_segments_of(const HsdSlate *slate, const HsdSlate *other)
{
    HsdSlate next_day = *slate;
    next_day.day++;
    check_opened(slate);
    for (unsigned number = 1; number <= 3; number++) {
        make_segment(other, number);
        check_other(&next_day, (HsdWhy){.part = HSD_WHY_DAY, .slate = 57211, .file = 57210});
        check_other(slate, judged(slate, other, number));
    }
}

/* Each cut, the even one too, offered the segments of each. */
static void check_other_cuts(void)
{
    HsdSlate cuts[ORDERS + 1] = {cut_into(3, (const uint16_t[]){2, 2, 2}, WIDEST)};
    for (size_t i = 0; i < ORDERS; i++)
        cuts[i + 1] = cut_in_order(i);
    for (size_t i = 0; i < (ORDERS + 1) * (ORDERS + 1); i++)
        check_segments_of(&cuts[i / (ORDERS + 1)], &cuts[i % (ORDERS + 1)]);
}

/* A fourth segment is none of three, though its height stands beyond theirs; nor is one of three the first of four. */
static void check_other_totals(void)
{
    const HsdSlate four = cut_into(4, (const uint16_t[]){3, 1, 2, 5}, WIDEST);
    HsdSlate three = four;
    three.total = 3;
    for (unsigned number = 1; number <= 4; number++) {
        check_opened(&three);
        make_segment(&four, number);
        check_other(&three, (HsdWhy){.part = HSD_WHY_TOTAL, .slate = 3, .file = 4});
        check_opened(&four);
        make_segment(&three, 1 + number % 3);
        check_other(&four, (HsdWhy){.part = HSD_WHY_TOTAL, .slate = 4, .file = 3});
    }
}

/* Every function refuses it, with good marks and a good file; the frame is as long as its sum, or as that sum in 16 bits. */
static void check_bad(const HsdSlate *slate)
{
    const HsdSlate good = cut_into(1, (const uint16_t[]){1}, slate->columns);
    const State before = state;
    make_segment(&good, 1);
    CHECK(is(opened(slate), HSD_SLATE, 0, 0));
    CHECK(is(offered(slate), HSD_SLATE, 0, 0));
    CHECK(is_same_why(asked(slate), (HsdWhy){.refusal = HSD_SLATE}));
    CHECK(memcmp(&state, &before, sizeof state) == 0);
    CHECK(looked_up(slate, 1, slate->columns) == 0 && is_untouched());
}

/* So many segments, all of them this high but for the last one. */
typedef struct Sum {
    unsigned total;
    uint16_t height, last;
} Sum;

static HsdSlate cut_by(Sum sum)
{
    uint16_t heights[HSD_MARKS];
    for (unsigned k = 0; k < sum.total; k++)
        heights[k] = k + 1 < sum.total ? sum.height : sum.last;
    return cut_into(sum.total, heights, 1);
}

/* A height of 0 is bad wherever it stands up to the last one, and nothing beyond that. */
static void check_zeros(unsigned total)
{
    HsdSlate slate = cut_by((Sum){total, 1, 1});
    check_opened(&slate);
    for (unsigned k = 0; k < total; k++) {
        slate.heights[k] = 0;
        check_bad(&slate);
        slate.heights[k] = 1;
    }
    check_offer(&slate, total);
}

/* 22,000 lines, all of them placed and looked up; one line more, in any segment, is too many. */
static void check_greatest(Sum sum)
{
    HsdSlate slate = cut_by(sum);
    check_opened(&slate);
    for (unsigned number = sum.total; number > 0; number--)
        check_offer(&slate, number);
    CHECK(memcmp(state.frame, sky, sizeof sky) == 0);
    check_lines(&slate);
    check_borders(&slate);
    for (unsigned k = 0; k < sum.total; k++) {
        slate.heights[k]++;
        check_bad(&slate);
        slate.heights[k]--;
    }
}

/* Sums at the limit; sums that 16 bits would have within it, and that are beyond them. */
static void check_sums(void)
{
    static const Sum greatest[] = {{1, 0, 22000}, {2, 1, 21999}, {3, 7333, 7334}, {99, 222, 244}};
    static const Sum beyond[] = {{1, 0, 22001},     {1, 0, 65535},     {2, 65535, 1},     {2, 65535, 2},     {2, 65535, 3},
                                 {2, 65535, 22001}, {2, 3, 65535},     {2, 32768, 32768}, {2, 32768, 32769}, {3, 65535, 3},
                                 {3, 32767, 3},     {4, 16384, 16385}, {99, 662, 663},    {99, 1338, 10},    {99, 65535, 9}};
    for (size_t i = 0; i < sizeof greatest / sizeof *greatest; i++)
        check_greatest(greatest[i]);
    memset(state.marks, 0, HSD_MARKS);
    memset(twin.marks, 0, HSD_MARKS);
    for (size_t i = 0; i < sizeof beyond / sizeof *beyond; i++) {
        const HsdSlate slate = cut_by(beyond[i]);
        check_bad(&slate);
    }
}

/* The numbers of the segments in any order. */
static void shuffle(unsigned total, uint8_t *numbers)
{
    for (unsigned i = 0; i < total; i++) {
        const unsigned place = any_below(i + 1);
        numbers[i] = numbers[place];
        numbers[place] = (uint8_t)(i + 1);
    }
}

static HsdSlate any_cut(void)
{
    uint16_t heights[HSD_MARKS];
    for (unsigned k = 0; k < HSD_MARKS; k++)
        heights[k] = (uint16_t)(1 + any_below(8));
    return cut_into(1 + any_below(HSD_MARKS), heights, (uint16_t)(1 + any_below(WIDEST)));
}

/* Offered in any order; the lines are looked up when some are in, and when all are. */
static void check_any(void)
{
    const HsdSlate slate = any_cut();
    const unsigned some = any_below(slate.total);
    uint8_t numbers[HSD_MARKS] = {0};
    shuffle(slate.total, numbers);
    check_opened(&slate);
    for (unsigned i = 0; i < slate.total; i++) {
        check_offer(&slate, numbers[i]);
        if (i == some || i + 1U == slate.total) {
            check_lines(&slate);
            check_borders(&slate);
        }
    }
}

/* Slates go to the library by value: what is lent comes back as it was. */
static void check_kept(void)
{
    const HsdSlate before = cut_in_order(0);
    HsdSlate slate = before;
    make_segment(&slate, 1);
    hsd_open(slate, state.marks, HSD_MARKS, state.frame, size_of(&slate));
    hsd_offer(slate, state.marks, HSD_MARKS, state.frame, size_of(&slate), file.bytes, file.length);
    hsd_line(slate, state.marks, HSD_MARKS, state.frame, size_of(&slate), leader, WIDEST, 1, state.out, WIDEST);
    hsd_why(slate, file.bytes, file.length);
    CHECK(is_same_slate(&slate, &before));
}

int main(void)
{
    for (size_t i = 0; i < ROOM; i++)
        sky[i] = (uint16_t)any();
    for (uint8_t order = 0; order < 2; order++) {
        make_good(&file, (Plan){order, {1, 2, 3}});
        check_cuts();
        check_other_cuts();
        check_other_totals();
        for (int i = 0; i < 30; i++)
            check_any();
    }
    for (unsigned total = 1; total <= HSD_MARKS; total += 7)
        check_zeros(total);
    check_sums();
    check_kept();
    return checked("uneven");
}
