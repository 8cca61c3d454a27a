/* Reels in one run: `reels SEGMENT SMALL`. Opening 255 segments against opening 255 small files, since no count is to be read; and
   writing 100 segments against memcpy of the same bytes, file by file and all at once. It takes 2.2 GB of memory. */
#include <string.h>

#include "bench.h"

enum { MOST = 255, WRITTEN = 100, OPENINGS = 10 };

/* A file so many times, and the trailer. */
typedef struct Reel {
    uint8_t *bytes;
    size_t length, file_length;
    uint32_t lengths[MOST];
} Reel;

typedef struct Reels {
    Reel big, small;
    uint8_t *out;
    size_t room;
} Reels;

static Reel reel_of(const char *name)
{
    Reel reel;
    uint8_t *file = load(name, &reel.file_length);
    size_t files = MOST * reel.file_length;
    reel.length = files + hsd_reel_trailer(MOST);
    reel.bytes = malloc(reel.length);
    if (!reel.bytes)
        fail("no memory for a reel");
    for (size_t i = 0; i < MOST; i++) {
        reel.lengths[i] = (uint32_t)reel.file_length;
        memcpy(reel.bytes + i * reel.file_length, file, reel.file_length);
    }
    free(file);
    if (hsd_reel_seal(reel.bytes, files, reel.lengths, MOST, reel.bytes + files, reel.length - files).refusal)
        fail("the files have no reel");
    return reel;
}

/* Ten times: one opening is too short to be timed well. */
static void open_reel(const Reel *reel)
{
    for (int i = 0; i < OPENINGS; i++)
        if (hsd_reel_open(reel->bytes, reel->length).files != MOST)
            fail("a reel was not opened");
}

static void open_big(void *with)
{
    const Reels *r = with;
    open_reel(&r->big);
}

static void open_small(void *with)
{
    const Reels *r = with;
    open_reel(&r->small);
}

static void write_big(void *with)
{
    const Reels *r = with;
    if (hsd_reel_write(r->big.bytes, WRITTEN * r->big.file_length, r->big.lengths, WRITTEN, r->out, r->room).refusal)
        fail("a reel was not written");
}

static void copy_each(void *with)
{
    const Reels *r = with;
    size_t length = r->big.file_length;
    for (size_t i = 0; i < WRITTEN; i++)
        memcpy(r->out + i * length, r->big.bytes + i * length, length);
}

/* Some processors' memcpy of so much at once goes past the caches, which it does not for a file. */
static void copy_all(void *with)
{
    const Reels *r = with;
    memcpy(r->out, r->big.bytes, WRITTEN * r->big.file_length);
}

int main(int count, char **words)
{
    static Reels r;
    if (count != 3)
        fail("give a segment and a small file");
    r.big = reel_of(words[1]);
    r.small = reel_of(words[2]);
    r.room = WRITTEN * r.big.file_length + hsd_reel_trailer(WRITTEN);
    r.out = malloc(r.room);
    if (!r.out)
        fail("no memory to write to");
    memset(r.out, 1, r.room);
    compare("ten openings of 255 segments, and of 255 small files", open_big, open_small, &r);
    compare("writing a reel of 100 segments, and memcpy of each", write_big, copy_each, &r);
    compare("writing a reel of 100 segments, and one memcpy", write_big, copy_all, &r);
    return 0;
}
