/* panulimbe reel write: files read end to end, and sealed by the trailer that makes them a reel. */
#include <errno.h>
#include <stdlib.h>
#include <string.h>

#include "reel.h"

/* The files, end to end. */
typedef struct Roll {
    File bytes;
    uint32_t *lengths;
    size_t count;
} Roll;

/* Adds a file and judges it. One with which the reel gets too long may be cut short, and the library will refuse them all. */
static int add_judged(const char *name, File *bytes, uint32_t *length)
{
    size_t start = bytes->length;
    if (!add_file(name, bytes))
        return UNUSABLE;
    *length = (uint32_t)(bytes->length - start);
    if (bytes->length == BEYOND_REELS)
        return GOOD;
    HsdFile found = hsd_accept(bytes->bytes + start, *length);
    if (!found.refusal)
        return GOOD;
    say_refused(name, refusal_of(&found));
    return REFUSED;
}

/* Adds all files, or as many as make the reel too long. After a fault nothing will be written: the rest are judged, not kept. */
static int gather(Roll *roll, char **names, bool progress)
{
    int worst = GOOD;
    for (size_t i = 0; i < roll->count && roll->bytes.length < BEYOND_REELS; i++) {
        int status = add_judged(names[i], &roll->bytes, &roll->lengths[i]);
        worst = status > worst ? status : worst;
        if (worst != GOOD)
            roll->bytes.length = 0;
        if (progress)
            show_progress("file", (unsigned)i + 1, (unsigned)roll->count);
    }
    return worst;
}

/* Puts the trailer after the files. There is a byte of room in any case, so that it can be lent. */
static int seal(Roll *roll, const char *name)
{
    size_t trailer = hsd_reel_trailer(roll->count), length = roll->bytes.length;
    if (!make_room(&roll->bytes, length + trailer + 1)) {
        complain("the reel", strerror(errno));
        return UNUSABLE;
    }
    uint8_t *bytes = roll->bytes.bytes;
    HsdAnswer answer = hsd_reel_seal(bytes, length, roll->lengths, roll->count, bytes + length, trailer);
    if (answer.refusal) {
        say_refused(name, answer);
        return REFUSED;
    }
    roll->bytes.length += trailer;
    return GOOD;
}

/* So many files that no reel has them are not even read: the library's answer is the same for files without bytes. */
static int make_reel(Roll *roll, const ReelWish *wish, char **names)
{
    roll->lengths = calloc(roll->count, sizeof *roll->lengths);
    if (!roll->lengths) {
        complain("the reel", strerror(errno));
        return UNUSABLE;
    }
    bool progress = wish->progress && !is_error_stream(wish->where);
    int status = hsd_reel_trailer(roll->count) == 0 ? GOOD : gather(roll, names, progress);
    return status == GOOD ? seal(roll, wish->where) : status;
}

int write_reel(int count, char **words)
{
    ReelWish wish;
    if (!parse_reel_wish(count, words, 'o', "output", &wish) || !wish.where || optind == count)
        return misused("reel write", "an output and at least one file");
    if (!spares_inputs(wish.where, count - optind, words + optind))
        return UNUSABLE;
    Roll roll = {.count = (size_t)(count - optind)};
    Output output = {.name = wish.where, .fill = write_bytes, .what = &roll.bytes, .keeps = !wish.force};
    if (!is_free(&output))
        return UNWRITTEN;
    int status = make_reel(&roll, &wish, words + optind);
    if (status == GOOD && !write_output(&output))
        status = UNWRITTEN;
    close_file(&roll.bytes);
    free(roll.lengths);
    return status;
}
