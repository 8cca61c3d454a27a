/* panulimbe frame: files offered to a frame one after the other, and the frame as a picture. */
#include <errno.h>
#include <stdlib.h>
#include <string.h>

#include "command.h"

/* What the words before the files ask for. */
typedef struct Wish {
    const char *slate, *out, *leader;
    bool progress;
} Wish;

static bool parse_wish(int count, char **words, Wish *wish)
{
    enum { SLATE = LONG_ONLY, OUTPUT, LEADER, PROGRESS };
    static const struct option options[] = {
        {"slate", required_argument, NULL, SLATE},
        {"output", required_argument, NULL, OUTPUT},
        {"leader", required_argument, NULL, LEADER},
        {"progress", no_argument, NULL, PROGRESS},
        {NULL, 0, NULL, 0},
    };
    int option;
    while ((option = next_option(count, words, ":o:", options)) != -1)
        switch (option) {
        case SLATE: wish->slate = optarg; break;
        case OUTPUT:
        case 'o': wish->out = optarg; break;
        case LEADER: wish->leader = optarg; break;
        case PROGRESS: wish->progress = true; break;
        default: return false;
        }
    return wish->slate && wish->out && optind < count;
}

/* Of a good slate. */
static bool open_frame(Frame *frame)
{
    frame->length = (size_t)frame_lines(&frame->slate) * frame->slate.columns;
    frame->counts = malloc(2 * frame->length);
    if (!frame->counts) {
        complain("the frame", strerror(errno));
        return false;
    }
    hsd_open(frame->slate, frame->marks, HSD_MARKS, frame->counts, frame->length);
    return true;
}

/* What the library answers is said; the record alone tells whether all is well in the end. */
static int offer_file(const char *name, const File *file, void *with)
{
    Frame *frame = with;
    if (!file)
        return UNUSABLE;
    HsdAnswer answer =
        hsd_offer(frame->slate, frame->marks, HSD_MARKS, frame->counts, frame->length, file->bytes, file->length);
    unsigned number = hsd_accept(file->bytes, file->length).number;
    if (answer.refusal)
        say_refused(name, answer);
    else
        say("%s: placed %u of %u\n", shown(name), number, frame->slate.total);
    return GOOD;
}

static unsigned tally(const Frame *frame)
{
    unsigned in = 0;
    for (unsigned k = 0; k < frame->slate.total; k++)
        in += frame->marks[k];
    return in;
}

static void say_record(const Frame *frame)
{
    unsigned in = tally(frame), total = frame->slate.total;
    say("%u of %u are in%s", in, total, in < total ? ", missing" : "");
    for (unsigned k = 0; k < total; k++)
        if (!frame->marks[k])
            say(" %u", k + 1);
    say("\n");
}

/* A leader that nobody takes for a sky, 32 bands of white and black; or the count that was asked for. */
static void make_leader(HsdSlate slate, bool plain, unsigned count, uint16_t *leader)
{
    unsigned white = (1U << hsd_valid_bits(slate.band)) - 1;
    for (unsigned i = 0; i < slate.columns; i++)
        leader[i] = (uint16_t)(plain ? count : i * 32 / slate.columns % 2 ? 0 : white);
}

/* Offers the files, then writes the picture; the exit status. */
static int fill(Frame *frame, const Wish *wish, const uint16_t *leader, int count, char **names)
{
    int worst = each_file(count, names, wish->progress, offer_file, frame);
    say_record(frame);
    if (!write_picture(wish->out, (Picture){frame, leader}, wish->progress))
        return UNWRITTEN;
    if (worst != GOOD)
        return worst;
    return tally(frame) == frame->slate.total ? GOOD : REFUSED;
}

int frame(int count, char **words)
{
    static uint16_t leader[WIDEST];
    Wish wish = {0};
    Frame frame;
    unsigned leader_count = 0;
    if (!parse_wish(count, words, &wish))
        return misused("frame", "a slate, an output and at least one file");
    if (!spares_inputs(wish.out, count - optind, words + optind))
        return UNUSABLE;
    if (wish.leader && !parse_number(wish.leader, 0, 65535, &leader_count)) {
        complain(wish.leader, "not a count of 0 to 65535");
        return UNUSABLE;
    }
    if (!read_slate(wish.slate, &frame.slate) || !open_frame(&frame))
        return UNUSABLE;
    make_leader(frame.slate, wish.leader, leader_count, leader);
    int status = fill(&frame, &wish, leader, count - optind, words + optind);
    free(frame.counts);
    return status;
}
