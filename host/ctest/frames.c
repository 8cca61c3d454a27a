/* The functions on files and frames, from C, over the small frame of the samples: its folder is the argument. */
#include <string.h>

#include "samples.h"

enum { COLUMNS = 64, LINES = 3, TOTAL = 4, LINE_COUNT = LINES * TOTAL, SIZE = LINE_COUNT * COLUMNS };

static const HsdSlate slate = {
    .satellite = 8, .total = TOTAL, .timeline = 200, .band = 13, .columns = COLUMNS, .heights = {LINES, LINES, LINES, LINES},
    .day = 57210, .area = HSD_AREA('F', 'L', 'D', 'K')};

/* Everything that a call may write to. */
typedef struct State {
    uint8_t marks[HSD_MARKS];
    uint16_t frame[SIZE + 1];
} State;

static HsdAnswer offer_to(HsdSlate to, State *state, size_t marks, size_t size, const Bytes *file)
{
    return hsd_offer(to, state->marks, marks, state->frame, size, file->bytes, file->length);
}

static HsdAnswer open_for(HsdSlate to, State *state, size_t marks, size_t size)
{
    return hsd_open(to, state->marks, marks, state->frame, size);
}

static void check_files(void)
{
    Bytes good = sample("good-1"), tail = sample("good-1");
    HsdFile f = hsd_accept(good.bytes, good.length);
    CHECK(f.refusal == HSD_FINE && f.block == 0 && f.offset == 0 && f.satellite == 8 && f.day == 57210 && f.timeline == 200);
    CHECK(f.band == 13 && f.area == HSD_AREA('F', 'L', 'D', 'K') && f.columns == 4 && f.lines == 2);
    CHECK(f.number == 1 && f.total == 2 && f.first_line == 1 && f.valid_bits == 12 && f.order == 1);
    CHECK(f.header_length == 1463 && f.gain == 0.5 && f.constant == -1 && f.quality == good.bytes[78]);
    tail.length++;
    CHECK(says_only(hsd_accept(tail.bytes, tail.length), HSD_TAIL, 12, 1463));
    CHECK(says_only(hsd_accept(good.bytes, good.length - 1), HSD_CUT, 12, 1463));
    CHECK(says_only(hsd_accept(good.bytes, 0), HSD_SHORT, 1, 0));
}

/* Slates with one part out of its range. */
static void check_slates(void)
{
    HsdSlate bad[] = {slate, slate, slate, slate, slate, slate, slate, slate, slate, slate, slate};
    bad[0].satellite = 7;
    bad[1].total = 0;
    bad[2].total = 100;
    bad[3].timeline = 2400;
    bad[4].band = 17;
    bad[5].columns = 0;
    bad[6].columns = 22001;
    bad[7].heights[0] = 0;
    bad[8].heights[3] = 22001 - 3 * LINES;
    bad[9].day = 51543;
    bad[10].area = HSD_AREA('F', 'L', 'D', 'X');
    for (size_t i = 0; i < sizeof bad / sizeof *bad; i++) {
        State state = {{0}, {0}}, before = state;
        Bytes file = sample("segment-1");
        CHECK(is(open_for(bad[i], &state, HSD_MARKS, SIZE), HSD_SLATE, 0, 0));
        CHECK(is(offer_to(bad[i], &state, HSD_MARKS, SIZE, &file), HSD_SLATE, 0, 0));
        CHECK(memcmp(&state, &before, sizeof state) == 0);
    }
}

/* Marks and frames that are not right. */
static void check_refused_state(void)
{
    State state = {{0}, {0}}, before = state;
    Bytes file = sample("segment-1");
    CHECK(is(open_for(slate, &state, HSD_MARKS - 1, SIZE), HSD_SLATE, 0, 0));
    CHECK(is(open_for(slate, &state, 0, SIZE), HSD_SLATE, 0, 0));
    CHECK(is(open_for(slate, &state, HSD_MARKS, SIZE - 1), HSD_STRIP, 0, 0));
    CHECK(is(open_for(slate, &state, HSD_MARKS, SIZE + 1), HSD_STRIP, 0, 0));
    CHECK(is(open_for(slate, &state, HSD_MARKS, 0), HSD_STRIP, 0, 0));
    CHECK(is(offer_to(slate, &state, HSD_MARKS - 1, SIZE, &file), HSD_SLATE, 0, 0));
    CHECK(is(offer_to(slate, &state, HSD_MARKS, SIZE - 1, &file), HSD_STRIP, 0, 0));
    CHECK(memcmp(&state, &before, sizeof state) == 0);
    before.marks[0] = state.marks[0] = 2;
    CHECK(is(offer_to(slate, &state, HSD_MARKS, SIZE, &file), HSD_SLATE, 0, 0));
    CHECK(memcmp(&state, &before, sizeof state) == 0);
    before.marks[0] = state.marks[0] = 0;
    before.marks[TOTAL] = state.marks[TOTAL] = 1;
    CHECK(is(offer_to(slate, &state, HSD_MARKS, SIZE, &file), HSD_SLATE, 0, 0));
    CHECK(memcmp(&state, &before, sizeof state) == 0);
}

/* A file that is refused leaves everything as it was. */
static void check_refused_file(State *state, const char *name, size_t length, uint8_t refusal, uint8_t block, uint32_t offset)
{
    State before = *state;
    Bytes file = sample(name);
    if (length)
        file.length = length;
    CHECK(is(offer_to(slate, state, HSD_MARKS, SIZE, &file), refusal, block, offset));
    CHECK(memcmp(state, &before, sizeof before) == 0);
}

/* A file that is placed changes its own lines and mark alone. */
static void check_placed(State *state, const char *name, unsigned number)
{
    State expected = *state;
    Bytes file = sample(name);
    HsdFile says = hsd_accept(file.bytes, file.length);
    for (size_t i = 0; i < LINES * COLUMNS; i++) {
        const uint8_t *count = file.bytes + says.header_length + 2 * i;
        expected.frame[(number - 1) * LINES * COLUMNS + i] =
            (uint16_t)(says.order ? count[0] << 8 | count[1] : count[1] << 8 | count[0]);
    }
    expected.marks[number - 1] = 1;
    CHECK(is(offer_to(slate, state, HSD_MARKS, SIZE, &file), HSD_FINE, 0, 0));
    CHECK(memcmp(state, &expected, sizeof expected) == 0);
}

static bool is_opened(const State *state)
{
    size_t right = 0;
    for (size_t i = 0; i < SIZE; i++)
        right += state->frame[i] == 65534;
    static const uint8_t none[HSD_MARKS];
    return right == SIZE && state->frame[SIZE] == 0 && memcmp(state->marks, none, HSD_MARKS) == 0;
}

/* Opening makes a record and reads none: any marks will do. */
static void check_any_marks(State *state)
{
    for (int mark = 0; mark < 256; mark++) {
        memset(state->marks, mark, HSD_MARKS);
        state->frame[0] = 0;
        CHECK(is(open_for(slate, state, HSD_MARKS, SIZE), HSD_FINE, 0, 0));
        CHECK(is_opened(state));
    }
}

/* One line of the frame, by the leader or not; what lies behind it in out stays. */
static void check_line(const State *state, uint16_t line, const uint16_t *leader, size_t leader_length)
{
    uint16_t out[COLUMNS + 1] = {0};
    bool in = state->marks[(line - 1) / LINES];
    const uint16_t *expected = in ? state->frame + (line - 1) * COLUMNS : leader;
    CHECK(hsd_line(slate, state->marks, HSD_MARKS, state->frame, SIZE, leader, leader_length, line, out, COLUMNS + 1) ==
          COLUMNS);
    CHECK(memcmp(out, expected, sizeof out - sizeof *out) == 0 && out[COLUMNS] == 0);
}

static void check_no_line(HsdSlate of, const State *state, size_t marks, size_t size, size_t leader_length,
                          uint16_t line, size_t room)
{
    static const uint16_t leader[COLUMNS] = {1, 2, 3};
    static const uint16_t nothing[COLUMNS];
    uint16_t out[COLUMNS] = {0};
    CHECK(hsd_line(of, state->marks, marks, state->frame, size, leader, leader_length, line, out, room) == 0);
    CHECK(memcmp(out, nothing, sizeof out) == 0);
}

/* Segments 1 and 3 are in. */
static void check_lines(const State *state)
{
    uint16_t leader[COLUMNS + 1] = {7, 8, 9};
    HsdSlate bad = slate;
    State other = *state;
    for (uint16_t line = 1; line <= LINE_COUNT; line++)
        check_line(state, line, leader, COLUMNS + line % 2);
    check_line(state, 1, leader, 0);
    check_no_line(slate, state, HSD_MARKS, SIZE, COLUMNS - 1, LINES + 1, COLUMNS);
    check_no_line(slate, state, HSD_MARKS, SIZE, COLUMNS, 0, COLUMNS);
    check_no_line(slate, state, HSD_MARKS, SIZE, COLUMNS, LINE_COUNT + 1, COLUMNS);
    check_no_line(slate, state, HSD_MARKS, SIZE, COLUMNS, 65535, COLUMNS);
    check_no_line(slate, state, HSD_MARKS, SIZE, COLUMNS, 1, COLUMNS - 1);
    check_no_line(slate, state, HSD_MARKS, SIZE - 1, COLUMNS, 1, COLUMNS);
    check_no_line(slate, state, HSD_MARKS - 1, SIZE, COLUMNS, 1, COLUMNS);
    other.marks[5] = 1;
    check_no_line(slate, &other, HSD_MARKS, SIZE, COLUMNS, 1, COLUMNS);
    bad.band = 0;
    check_no_line(bad, state, HSD_MARKS, SIZE, COLUMNS, 1, COLUMNS);
}

static void check_frame(void)
{
    State state = {{0}, {0}};
    CHECK(is(open_for(slate, &state, HSD_MARKS, SIZE), HSD_FINE, 0, 0));
    CHECK(is_opened(&state));
    check_placed(&state, "segment-3", 3);
    check_refused_file(&state, "stray-late", 0, HSD_OTHER_SHOT, 0, 0);
    check_refused_file(&state, "stray-day", 0, HSD_OTHER_SHOT, 0, 0);
    check_refused_file(&state, "good-0", 0, HSD_OTHER_SHOT, 0, 0);
    check_placed(&state, "segment-1", 1);
    check_refused_file(&state, "segment-3", 0, HSD_ALREADY, 0, 0);
    check_refused_file(&state, "segment-2", 1000, HSD_SHORT, 6, 745);
    check_refused_file(&state, "segment-2", 1800, HSD_CUT, 12, 1463);
    check_lines(&state);
    check_placed(&state, "segment-4", 4);
    check_placed(&state, "segment-2", 2);
    check_any_marks(&state);
}

int main(int count, char **words)
{
    if (count != 2)
        return 2;
    folder = words[1];
    check_files();
    check_slates();
    check_refused_state();
    check_frame();
    return checked("frames");
}
