/* Reels from C, beside a plain writer of the test's own, over the files of the samples: their folder is the argument. */
#include <sys/resource.h>

#include "memory.h"
#include "samples.h"
#include "trailer.h"

enum {
    MOST = 255,
    LENGTHS = 70000,
    FILES_ROOM = (MOST + 1) * ROOM,
    REEL_ROOM = FILES_ROOM + (MOST + 1) * ENTRY + END,
    COUNTS = 1463 /* where the counts start in the good files: none of them has entries */
};

static const uint64_t LIMIT = (uint64_t)1 << 32;

/* Files end to end. */
typedef struct List {
    uint8_t files[FILES_ROOM];
    size_t size;
    uint32_t lengths[LENGTHS];
    size_t count;
} List;

/* A reel as the test writes it. */
typedef struct Reel {
    uint8_t bytes[REEL_ROOM];
    size_t length;
    uint8_t *trailer;
} Reel;

/* Lists that have one reel, and lists with a bad file: the first bad one answers. A file is named by a letter. */
static const char *const sound[] = {"1", "b", "12", "2ab431", NULL};
static const struct {
    const char *letters;
    uint8_t refusal, block;
    uint32_t offset;
} faulty[] = {
    {"n", HSD_NUMBER, 1, 0},       {"n12", HSD_NUMBER, 1, 0},      {"1n2", HSD_NUMBER, 1, 0},      {"12n", HSD_NUMBER, 1, 0},
    {"c", HSD_CUT, 12, COUNTS},    {"c34", HSD_CUT, 12, COUNTS},   {"3c4", HSD_CUT, 12, COUNTS},   {"34c", HSD_CUT, 12, COUNTS},
    {"ab1t", HSD_TAIL, 12, COUNTS}, {"1cn", HSD_CUT, 12, COUNTS},  {"1nc", HSD_NUMBER, 1, 0},      {"t2n", HSD_TAIL, 12, COUNTS},
    {"n2t", HSD_NUMBER, 1, 0},     {"0", HSD_SHORT, 1, 0},         {"00", HSD_SHORT, 1, 0},        {"012", HSD_SHORT, 1, 0},
    {"102", HSD_SHORT, 1, 0},      {"120", HSD_SHORT, 1, 0},       {"10n", HSD_SHORT, 1, 0},       {"1n0", HSD_NUMBER, 1, 0}};
enum { FAULTY = sizeof faulty / sizeof *faulty };

static char most[MOST + 2]; /* the letters of a list of 255 files */
static Bytes kinds[128];
static List list;
static Reel reel;

/* Good files are 1 to 4, a and b; n begins with a wrong number, c is cut by a byte, t has one more, and 0 has none. */
static void load_kinds(void)
{
    kinds['1'] = sample("segment-1");
    kinds['2'] = sample("segment-2");
    kinds['3'] = sample("segment-3");
    kinds['4'] = sample("segment-4");
    kinds['a'] = sample("good-0");
    kinds['b'] = sample("good-1");
    kinds['n'] = kinds['a'];
    kinds['n'].bytes[0] = 2;
    kinds['c'] = kinds['2'];
    kinds['c'].length--;
    kinds['t'] = kinds['3'];
    kinds['t'].length++;
    for (size_t i = 0; i < MOST; i++)
        most[i] = "1a2b34"[i % 6];
}

static void make_list(const char *letters)
{
    memset(&list, 0, sizeof list);
    for (; *letters; letters++) {
        const Bytes *file = &kinds[(unsigned char)*letters];
        memcpy(list.files + list.size, file->bytes, file->length);
        list.lengths[list.count++] = (uint32_t)file->length;
        list.size += file->length;
    }
}

static void make_reel(const char *letters)
{
    make_list(letters);
    memset(&reel, 0, sizeof reel);
    memcpy(reel.bytes, list.files, list.size);
    reel.trailer = reel.bytes + list.size;
    reel.length = list.size + put_trailer(reel.trailer, list.lengths, list.count);
}

/* How much of the files a writer writes: all of them, or nothing before the trailer. */
static size_t written_files(Writer *writer)
{
    return writer == hsd_reel_write ? list.size : 0;
}

static size_t needed(Writer *writer)
{
    return written_files(writer) + list.count * ENTRY + END;
}

/* A writer's answer to the list; what it writes when that is fine, and that all else stays. */
static bool gives(Writer *writer, size_t room, uint8_t refusal, uint8_t block, uint32_t offset)
{
    static uint8_t out[REEL_ROOM + ROOM], wanted[sizeof out];
    static List before;
    memcpy(&before, &list, sizeof list);
    memset(out, 0xa5, sizeof out);
    memset(wanted, 0xa5, sizeof out);
    if (refusal == HSD_FINE) {
        memcpy(wanted + 1, list.files, written_files(writer));
        put_trailer(wanted + 1 + written_files(writer), list.lengths, list.count);
    }
    HsdAnswer answer = writer(list.files, list.size, list.lengths, list.count, out + 1, room);
    return is(answer, refusal, block, offset) && memcmp(out, wanted, sizeof out) == 0 && memcmp(&before, &list, sizeof list) == 0;
}

static void check_written(Writer *writer, const char *letters)
{
    make_list(letters);
    CHECK(gives(writer, needed(writer), HSD_FINE, 0, 0));
    CHECK(gives(writer, needed(writer) + 1, HSD_FINE, 0, 0));
    CHECK(gives(writer, needed(writer) + ROOM - 1, HSD_FINE, 0, 0));
    CHECK(gives(writer, needed(writer) - 1, HSD_ROOM, 0, 0));
    CHECK(gives(writer, needed(writer) - END, HSD_ROOM, 0, 0));
    CHECK(gives(writer, written_files(writer), HSD_ROOM, 0, 0));
    CHECK(gives(writer, 0, HSD_ROOM, 0, 0));
}

/* Lengths that add up, but none or too many of them; cut to 8 or 16 bits some of these numbers would be fine. */
static void check_counts(Writer *writer)
{
    static const size_t counts[] = {0, 256, 257, 258, 512, 65535, 65536, 65537, 65538, LENGTHS};
    for (size_t i = 0; i < sizeof counts / sizeof *counts; i++) {
        make_list("12");
        list.count = counts[i];
        CHECK(gives(writer, REEL_ROOM, HSD_REEL, 0, 0));
        CHECK(gives(writer, 0, HSD_REEL, 0, 0));
    }
    make_list("");
    CHECK(gives(writer, REEL_ROOM, HSD_REEL, 0, 0));
    most[MOST] = '1';
    make_list(most);
    most[MOST] = 0;
    CHECK(list.count == 256 && gives(writer, REEL_ROOM, HSD_REEL, 0, 0));
}

/* Lengths or bytes that are so much off; where they still add up the first file ends too late or too early. */
static void check_sums(Writer *writer)
{
    static const struct {
        int first, second, size;
        uint8_t refusal, block;
        uint32_t offset;
    } off[] = {{1, 0, 0, HSD_REEL, 0, 0},        {-1, 0, 0, HSD_REEL, 0, 0},      {0, 1, 0, HSD_REEL, 0, 0},
               {0, -1, 0, HSD_REEL, 0, 0},       {0, 0, 1, HSD_REEL, 0, 0},       {0, 0, -1, HSD_REEL, 0, 0},
               {1, 1, -2, HSD_REEL, 0, 0},       {256, 0, 0, HSD_REEL, 0, 0},     {1, -1, 0, HSD_TAIL, 12, COUNTS},
               {-1, 1, 0, HSD_CUT, 12, COUNTS}};
    for (size_t i = 0; i < sizeof off / sizeof *off; i++) {
        make_list("12");
        list.lengths[0] += (uint32_t)off[i].first;
        list.lengths[1] += (uint32_t)off[i].second;
        list.size += (size_t)(ptrdiff_t)off[i].size;
        CHECK(gives(writer, REEL_ROOM, off[i].refusal, off[i].block, off[i].offset));
        CHECK(gives(writer, 0, off[i].refusal, off[i].block, off[i].offset));
    }
}

/* Lengths whose sum is the bytes' only in 32 bits. */
static void check_wrapped_sums(Writer *writer)
{
    make_list("12");
    list.lengths[0] = UINT32_MAX;
    list.lengths[1] = (uint32_t)list.size + 1;
    CHECK(gives(writer, REEL_ROOM, HSD_REEL, 0, 0));
    make_list("123");
    list.lengths[1] = UINT32_MAX;
    list.lengths[2] = (uint32_t)list.size - list.lengths[0] + 1;
    CHECK(gives(writer, REEL_ROOM, HSD_REEL, 0, 0));
}

/* What is wrong with the list answers before a bad file does, and the room for the reel after it. */
static void check_order(Writer *writer)
{
    for (size_t i = 0; i < FAULTY; i++) {
        make_list(faulty[i].letters);
        CHECK(gives(writer, REEL_ROOM, faulty[i].refusal, faulty[i].block, faulty[i].offset));
        CHECK(gives(writer, needed(writer) - 1, faulty[i].refusal, faulty[i].block, faulty[i].offset));
        CHECK(gives(writer, 0, faulty[i].refusal, faulty[i].block, faulty[i].offset));
        list.lengths[list.count - 1]++;
        CHECK(gives(writer, REEL_ROOM, HSD_REEL, 0, 0));
        CHECK(gives(writer, 0, HSD_REEL, 0, 0));
    }
}

static void check_writer(Writer *writer)
{
    for (size_t i = 0; sound[i]; i++)
        check_written(writer, sound[i]);
    check_written(writer, most);
    check_counts(writer);
    check_sums(writer);
    check_wrapped_sums(writer);
    check_order(writer);
}

static bool opens_as(const uint8_t *bytes, size_t length, HsdAnswer wanted, size_t files)
{
    const uint8_t *lent = lend(bytes, length);
    HsdReel answer = hsd_reel_open(lent, length);
    return is_reel(answer, wanted.refusal, wanted.block, wanted.offset, files) && memcmp(lent, bytes, length) == 0;
}

static bool opens(const uint8_t *bytes, size_t length, size_t files)
{
    return opens_as(bytes, length, (HsdAnswer){HSD_FINE, 0, 0}, files);
}

static bool refuses(const uint8_t *bytes, size_t length, uint8_t refusal, uint8_t block, uint32_t offset)
{
    return opens_as(bytes, length, (HsdAnswer){refusal, block, offset}, 0);
}

static bool is_refused(void)
{
    return refuses(reel.bytes, reel.length, HSD_REEL, 0, 0);
}

static bool shows(const uint8_t *bytes, size_t length, size_t number, uint64_t offset, uint64_t part_length)
{
    const uint8_t *lent = lend(bytes, length);
    HsdPart part = hsd_reel_part(lent, length, (uint16_t)number);
    return part.offset == offset && part.length == part_length && memcmp(lent, bytes, length) == 0;
}

static bool shows_nothing(size_t number)
{
    return shows(reel.bytes, reel.length, number, 0, 0);
}

/* The parts of the reel are the list's files, one after the other, and there are no others. */
static void check_parts(void)
{
    uint64_t offset = 0;
    for (size_t i = 0; i < list.count; i++) {
        CHECK(shows(reel.bytes, reel.length, i + 1, offset, list.lengths[i]));
        offset += list.lengths[i];
    }
    CHECK(shows_nothing(0));
    CHECK(shows_nothing(list.count + 1));
    CHECK(shows_nothing(256));
    CHECK(shows_nothing(257));
    CHECK(shows_nothing(32769));
    CHECK(shows_nothing(65535));
}

/* In a sound trailer each byte follows from the others and the length: none can be another one. */
static void check_trailer_bytes(void)
{
    size_t length = list.count * ENTRY + END;
    for (size_t i = 0; i < 2 * length; i++) {
        uint8_t *at = reel.trailer + i / 2, was = *at;
        *at = (uint8_t)(was + (i % 2 ? 1 : 255));
        CHECK(is_refused());
        *at = was;
    }
}

/* The reel with a byte more or less, at its front or its end. */
static void check_ends(void)
{
    CHECK(refuses(reel.bytes, reel.length - 1, HSD_REEL, 0, 0));
    CHECK(refuses(reel.bytes + 1, reel.length - 1, HSD_REEL, 0, 0));
    CHECK(refuses(reel.bytes, reel.length + 1, HSD_REEL, 0, 0));
    memmove(reel.bytes + 1, reel.bytes, reel.length);
    CHECK(refuses(reel.bytes, reel.length + 1, HSD_REEL, 0, 0));
}

static void check_opened(const char *letters)
{
    make_reel(letters);
    CHECK(opens(reel.bytes, reel.length, strlen(letters)));
    check_parts();
    check_trailer_bytes();
    CHECK(opens(reel.bytes, reel.length, strlen(letters)));
    check_ends();
}

/* Two entries and what opening says of them; the last four tile the reel, but not as its files do. */
static void check_entries(void)
{
    make_reel("12");
    const uint64_t a = list.lengths[0], b = list.lengths[1], all = a + b;
    const struct {
        uint64_t offset1, length1, offset2, length2;
        uint8_t refusal, block;
        uint32_t offset;
    } pairs[] = {
        {a, b, 0, a, HSD_REEL, 0, 0},                        /* exchanged */
        {0, a, a - 1, b + 1, HSD_REEL, 0, 0},                /* overlapping */
        {0, a + 1, a, b, HSD_REEL, 0, 0},                    /* overlapping */
        {0, all, 0, all, HSD_REEL, 0, 0},                    /* the same twice */
        {0, a, a + 1, b - 1, HSD_REEL, 0, 0},                /* a gap between them */
        {0, a - 1, a, b, HSD_REEL, 0, 0},                    /* a gap between them */
        {1, a - 1, a, b, HSD_REEL, 0, 0},                    /* a gap before the first */
        {0, a, a, b - 1, HSD_REEL, 0, 0},                    /* a gap before the trailer */
        {0, a, a, b + 1, HSD_REEL, 0, 0},                    /* reaching into the trailer */
        {0, a, a, b + LIMIT / 2, HSD_REEL, 0, 0},            /* reaching beyond the reel */
        {0, LIMIT - 1, LIMIT - 1, all + 1, HSD_REEL, 0, 0},  /* tiling in 32 bits alone */
        {LIMIT - 1, a + 1, a, b, HSD_REEL, 0, 0},            /* tiling in 32 bits alone */
        {0, 0, 0, all, HSD_SHORT, 1, 0},
        {0, all, all, 0, HSD_TAIL, 12, COUNTS},
        {0, a + 1, a + 1, b - 1, HSD_TAIL, 12, COUNTS},
        {0, a - 1, a - 1, b + 1, HSD_CUT, 12, COUNTS},
    };
    for (size_t i = 0; i < sizeof pairs / sizeof *pairs; i++) {
        put_entry(reel.trailer, 1, pairs[i].offset1, pairs[i].length1);
        put_entry(reel.trailer, 2, pairs[i].offset2, pairs[i].length2);
        CHECK(refuses(reel.bytes, reel.length, pairs[i].refusal, pairs[i].block, pairs[i].offset));
    }
}

/* A byte that no entry covers. */
static void check_spare_byte(void)
{
    make_reel("12");
    memmove(reel.trailer + 1, reel.trailer, reel.length++ - list.size);
    reel.trailer++;
    put_end(reel.trailer + 2 * ENTRY, 2, list.size + 1);
    CHECK(is_refused());
    put_entry(reel.trailer, 2, list.lengths[0] + 1, list.lengths[1]);
    CHECK(is_refused());
}

/* Other last letters: no reel, but entries that can be read. */
static void check_letters(void)
{
    static const char *const letters[] = {"REL2", "reel", "LEER", "\0\0\0\0"};
    for (size_t i = 0; i < sizeof letters / sizeof *letters; i++) {
        make_reel("12");
        memcpy(reel.bytes + reel.length - 4, letters[i], 4);
        CHECK(is_refused());
        check_parts();
    }
}

/* So few bytes that no trailer stands in them: the end of a sound reel, zeros, and an end whose offset fits in 32 bits alone. */
static void check_few_bytes(void)
{
    for (size_t length = 0; length <= 20; length++) {
        uint8_t bytes[20] = {0};
        make_reel("1");
        CHECK(refuses(reel.bytes + reel.length - length, length, HSD_REEL, 0, 0));
        CHECK(shows(reel.bytes + reel.length - length, length, 1, 0, 0));
        CHECK(refuses(bytes, length, HSD_REEL, 0, 0));
        CHECK(shows(bytes, length, 1, 0, 0));
        if (length < END)
            continue;
        put_end(bytes + length - END, 0, length - END);
        CHECK(refuses(bytes, length, HSD_REEL, 0, 0));
        put_end(bytes + length - END, MOST, length - END - MOST * ENTRY);
        CHECK(refuses(bytes, length, HSD_REEL, 0, 0));
        CHECK(shows(bytes, length, 0, 0, 0));
        CHECK(shows(bytes, length, 1, 0, 0));
    }
}

/* The fewest bytes with an entry; without the letters what follows it would do for another one. */
static void check_one_entry(void)
{
    for (size_t size = 0; size <= 3; size++) {
        uint8_t bytes[3 + ENTRY + END] = {0};
        const size_t length = size + ENTRY + END;
        put_entry(bytes + size, 1, 2, length - 2);
        put_end(bytes + size + ENTRY, 1, size);
        CHECK(refuses(bytes, length, HSD_REEL, 0, 0));
        CHECK(shows(bytes, length, 1, 2, length - 2));
        put_entry(bytes + size, 1, 0, size);
        CHECK(refuses(bytes, length, HSD_SHORT, 1, 0));
        CHECK(shows(bytes, length, 1, 0, size));
        memset(bytes + length - 4, 0, 4);
        CHECK(shows(bytes, length, 2, 0, 0));
    }
}

/* An entry is shown when the part that it gives ends within the bytes, be they a reel or not. */
static void check_damaged_parts(void)
{
    make_reel("1");
    const uint64_t all = reel.length;
    const struct {
        uint64_t offset, length;
        bool within;
    } parts[] = {{0, all, true},          {all, 0, true},           {3, all - 3, true},          {1, all, false},
                 {all, 1, false},         {all + 1, 0, false},      {0, all + 1, false},         {0, LIMIT - 1, false},
                 {LIMIT - 1, 0, false},   {LIMIT - 1, 1, false},    {LIMIT - 1, LIMIT - 1, false}, {1, LIMIT - 1, false},
                 {LIMIT - 16, 32, false}, {LIMIT / 2, LIMIT / 2, false}, {0, 0, true}};
    for (size_t i = 0; i < sizeof parts / sizeof *parts; i++) {
        put_entry(reel.trailer, 1, parts[i].offset, parts[i].length);
        CHECK(parts[i].within ? shows(reel.bytes, all, 1, parts[i].offset, parts[i].length) : shows_nothing(1));
        CHECK(shows_nothing(2));
    }
}

/* Bytes of which most bits are 0, so that numbers in them are often small. */
static uint64_t put_random(uint8_t *to, size_t length, uint64_t seed)
{
    for (size_t i = 0; i < length; i++) {
        seed = seed * 6364136223846793005U + 1442695040888963407U;
        to[i] = (uint8_t)(seed >> 33 & seed >> 43 & seed >> 53);
    }
    return seed;
}

/* Whatever the bytes are, a part that is shown lies within them, and there are no more than their number of files. */
static void check_any_parts(void)
{
    uint64_t seed = 20150707;
    for (unsigned i = 0; i < 200000; i++) {
        uint8_t bytes[64];
        seed = put_random(bytes, sizeof bytes, seed);
        size_t length = seed >> 40 & 63;
        uint16_t number = seed >> 56 & 7;
        HsdPart part = hsd_reel_part(lend(bytes, length), length, number);
        CHECK((uint64_t)part.offset + part.length <= length);
        bool listed = number > 0 && length >= END && number <= bytes[length - END];
        CHECK(listed || (part.offset == 0 && part.length == 0));
    }
}

static void check_faulty(void)
{
    for (size_t i = 0; i < FAULTY; i++) {
        make_reel(faulty[i].letters);
        CHECK(refuses(reel.bytes, reel.length, faulty[i].refusal, faulty[i].block, faulty[i].offset));
        check_parts();
        reel.bytes[reel.length - 1]++;
        CHECK(is_refused());
    }
}

/* A refused file of the samples, after a good one and before another bad one. */
static void check_refused_file(const char *name, uint8_t refusal, uint8_t block, uint32_t offset)
{
    kinds['x'] = sample(name);
    CHECK(says_only(hsd_accept(kinds['x'].bytes, kinds['x'].length), refusal, block, offset));
    make_reel("1xn");
    CHECK(refuses(reel.bytes, reel.length, refusal, block, offset));
    CHECK(gives(hsd_reel_write, REEL_ROOM, refusal, block, offset));
    CHECK(gives(hsd_reel_seal, REEL_ROOM, refusal, block, offset));
}

static void check_refused(void)
{
    static Refused all[REFUSED_ROOM];
    const size_t count = refused_samples(all);
    for (size_t i = 0; i < count; i++)
        check_refused_file(all[i].name, all[i].answer.refusal, all[i].answer.block, all[i].answer.offset);
}

static void check_trailer_lengths(void)
{
    for (size_t files = 1; files <= MOST; files++)
        CHECK(hsd_reel_trailer(files) == files * ENTRY + END);
    CHECK(hsd_reel_trailer(0) == 0);
    CHECK(hsd_reel_trailer(256) == 0);
    CHECK(hsd_reel_trailer(257) == 0);
    CHECK(hsd_reel_trailer(65536) == 0);
    CHECK(hsd_reel_trailer(65537) == 0);
    CHECK(hsd_reel_trailer((size_t)LIMIT + 1) == 0);
    CHECK(hsd_reel_trailer(SIZE_MAX / 2 + 2) == 0);
    CHECK(hsd_reel_trailer(SIZE_MAX) == 0);
}

/* Zeros with the trailer of a single file, which is all of them: a file that does not begin with its block's number. */
static void check_huge_reel(uint8_t *huge, uint64_t length, uint8_t refusal, uint8_t block)
{
    const uint64_t size = length - ENTRY - END;
    put_entry(huge + size, 1, 0, size);
    put_end(huge + size + ENTRY, 1, size);
    CHECK(is_reel(hsd_reel_open(huge, length), refusal, block, 0, 0));
    memset(huge + size, 0, ENTRY + END);
}

/* As many zeros in two files. */
static void check_huge_list(Writer *writer, const uint8_t *huge, uint64_t size, uint8_t refusal, uint8_t block)
{
    static const uint8_t untouched[ROOM];
    uint8_t out[ROOM] = {0};
    const uint32_t lengths[] = {UINT32_MAX - 1000, (uint32_t)(size - UINT32_MAX + 1000)};
    CHECK(is(writer(huge, size, lengths, 2, out, ROOM), refusal, block, 0));
    CHECK(is(writer(huge, size, lengths, 2, out, 0), refusal, block, 0));
    CHECK(memcmp(out, untouched, ROOM) == 0);
}

/* An entry of a reel that is too big is shown like any other, as long as four bytes can point at it. */
static void check_huge_part(uint8_t *huge, uint64_t length, uint64_t offset, uint64_t part_length, bool within)
{
    uint8_t *trailer = huge + length - ENTRY - END;
    put_entry(trailer, 1, offset, part_length);
    put_end(trailer + ENTRY, 1, length - ENTRY - END);
    HsdPart part = hsd_reel_part(huge, length, 1);
    CHECK(part.offset == (within ? offset : 0) && part.length == (within ? part_length : 0));
    memset(trailer, 0, ENTRY + END);
}

static void check_huge_lists(Writer *writer, const uint8_t *huge)
{
    check_huge_list(writer, huge, LIMIT - 2 * ENTRY - END - 1, HSD_NUMBER, 1);
    check_huge_list(writer, huge, LIMIT - 2 * ENTRY - END, HSD_REEL, 0);
    check_huge_list(writer, huge, LIMIT - 1, HSD_REEL, 0);
    check_huge_list(writer, huge, LIMIT, HSD_REEL, 0);
    check_huge_list(writer, huge, LIMIT + 1000, HSD_REEL, 0);
}

static long page_faults(void)
{
    struct rusage use;
    getrusage(RUSAGE_SELF, &use);
    return use.ru_minflt;
}

/* Sizes around the limit. Few pages of all these are ever touched: the size answers before 4 GB are read. */
static void check_huge(void)
{
    size_t room = (size_t)LIMIT + GUARD;
    uint8_t *huge = mmap(NULL, room, PROT_READ | PROT_WRITE, MAP_PRIVATE | MAP_ANONYMOUS | MAP_NORESERVE, -1, 0);
    CHECK(huge != MAP_FAILED);
    if (huge == MAP_FAILED)
        return;
    long faults = page_faults();
    check_huge_reel(huge, LIMIT - 1, HSD_NUMBER, 1);
    check_huge_reel(huge, LIMIT, HSD_REEL, 0);
    check_huge_reel(huge, LIMIT + ENTRY + END - 1, HSD_REEL, 0);
    check_huge_reel(huge, LIMIT + ENTRY + END, HSD_REEL, 0);
    check_huge_reel(huge, LIMIT + ENTRY + END + kinds['1'].length, HSD_REEL, 0);
    check_huge_lists(hsd_reel_write, huge);
    check_huge_lists(hsd_reel_seal, huge);
    check_huge_part(huge, LIMIT + 16, 0, LIMIT - 1, true);
    check_huge_part(huge, LIMIT + 16, LIMIT - 1, 17, true);
    check_huge_part(huge, LIMIT + 16, LIMIT - 1, 18, false);
    check_huge_part(huge, LIMIT + 16, LIMIT - 1, LIMIT - 1, false);
    CHECK(page_faults() - faults < 500);
    munmap(huge, room);
}

static void check_openings(void)
{
    for (size_t i = 0; sound[i]; i++)
        check_opened(sound[i]);
    check_opened(most);
    check_entries();
    check_spare_byte();
    check_letters();
    check_few_bytes();
    check_one_entry();
    check_faulty();
}

int main(int count, char **words)
{
    if (count != 2 || !make_memory())
        return 2;
    folder = words[1];
    load_kinds();
    check_writer(hsd_reel_write);
    check_writer(hsd_reel_seal);
    check_openings();
    check_damaged_parts();
    check_any_parts();
    check_refused();
    check_trailer_lengths();
    check_huge();
    return checked("reels");
}
