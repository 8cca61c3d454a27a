/* The proved library as a server on standard input and output, so that a test in another language can ask it.
   A request is a length, eight bytes with the lowest first, and so many bytes; the answer is an HsdFile as it
   stands in memory. With only the length's top bit set the answer is instead how many nanoseconds hsd_accept
   takes on those bytes, as a double. With only the next bit set the request is a History, and the answer what
   each of its steps answers. With both set the bytes begin with the number of a question, eight bytes with the
   lowest first, and the rest is the question's own:
     0  quality: one byte, quality flag 1; the answer is its HsdQuality as it stands in memory.
     1  open: the rest is the reel; the answer is an HsdReel as it stands in memory.
     2  part: eight bytes, the part's number (its low 16 bits), then the reel; the answer is an HsdPart.
     3  write: eight bytes each, how many lengths there are and how many bytes of output; then the lengths, four
        bytes each, and the files. The answer is a verdict and the whole output, filled with 0xaa before.
     4  seal: as 3.
     5  trailer: eight bytes, the number of files; the answer is eight bytes.
     6  frame number: eight bytes each, the first shot's day and timeline and the shot's (their low 32 and 16 bits);
        the answer is an HsdFrameNumber as it stands in memory.
     7  night: an HsdRun as it stands in memory, then the file; the answer is an HsdNight as it stands in memory.
     8  why: an HsdSlate as it stands in memory, then the file; the answer is an HsdWhy as it stands in memory.
   A verdict is an HsdAnswer in six bytes: refusal, block, and four for the offset with the lowest first. A question of
   another number, with bytes that are too few, or with bytes that have no meaning behind those of 0, 5 and 6 ends the
   bridge with status 1. What is used of C is declared here. */
typedef unsigned char u8;
typedef unsigned short u16;
typedef unsigned int u32;
typedef unsigned long u64;

typedef struct HsdFile {
    u8 refusal, block, satellite, quality;
    u32 offset, day;
    u16 timeline, band;
    u32 area;
    u16 columns, lines;
    u8 number, total;
    u16 first_line, valid_bits;
    u8 order;
    u32 header_length;
    double gain, constant;
} HsdFile;

typedef struct HsdQuality {
    u8 invalid, sun, moon, test, manoeuvre, unloading, solar_calibration, eclipse;
} HsdQuality;

typedef struct HsdSlate {
    u8 satellite, total;
    u16 timeline, band, columns, heights[99];
    u32 day, area;
} HsdSlate;

typedef struct HsdAnswer {
    u8 refusal, block;
    u32 offset;
} HsdAnswer;

typedef struct HsdReel {
    u8 refusal, block;
    u16 files;
    u32 offset;
} HsdReel;

typedef struct HsdPart {
    u32 offset, length;
} HsdPart;

typedef struct HsdFrameNumber {
    u8 refusal, block;
    u32 offset;
    long number;
} HsdFrameNumber;

typedef struct HsdRun {
    u64 radiance, error, outside, over, uncalibrated;
    u32 accepted, refused[64];
} HsdRun;

typedef struct HsdNight {
    u8 refusal, block;
    u32 offset;
    long extra;
    HsdRun run;
} HsdNight;

typedef struct HsdWhy {
    u8 refusal, block, part;
    u32 offset;
    u64 slate, file;
} HsdWhy;

HsdFile hsd_accept(const u8 *file, u64 length);
HsdQuality hsd_quality(u8 quality);
HsdFrameNumber hsd_frame_number(u32 first_day, u16 first_timeline, u32 day, u16 timeline);
HsdAnswer hsd_open(HsdSlate slate, u8 *marks, u64 marks_length, u16 *frame, u64 frame_length);
HsdAnswer hsd_offer(HsdSlate slate, u8 *marks, u64 marks_length, u16 *frame, u64 frame_length, const u8 *file,
                    u64 file_length);
u64 hsd_line(HsdSlate slate, const u8 *marks, u64 marks_length, const u16 *frame, u64 frame_length, const u16 *leader,
             u64 leader_length, u16 line, u16 *out, u64 out_length);
HsdReel hsd_reel_open(const u8 *reel, u64 reel_length);
HsdPart hsd_reel_part(const u8 *reel, u64 reel_length, u16 number);
u64 hsd_reel_trailer(u64 files);
HsdAnswer hsd_reel_write(const u8 *files, u64 files_length, const u32 *lengths, u64 lengths_length, u8 *out,
                         u64 out_length);
HsdAnswer hsd_reel_seal(const u8 *files, u64 files_length, const u32 *lengths, u64 lengths_length, u8 *out,
                        u64 out_length);
HsdNight hsd_night_add(HsdRun run, const u8 *file, u64 file_length);
HsdWhy hsd_why(HsdSlate slate, const u8 *file, u64 file_length);

struct timespec { long seconds, nanoseconds; };
int clock_gettime(int clock, struct timespec *now);
long read(int from, void *bytes, u64 length);
long write(int to, const void *bytes, u64 length);
void *realloc(void *old, u64 length);
void exit(int status) __attribute__((noreturn));
void *memset(void *bytes, int value, u64 length);
void *memcpy(void *to, const void *from, u64 length);

static int read_all(void *what, u64 length)
{
    u8 *bytes = what;
    while (length > 0) {
        long got = read(0, bytes, length);
        if (got <= 0)
            return 0;
        bytes += got;
        length -= (u64)got;
    }
    return 1;
}

static void write_all(const void *what, u64 length)
{
    const u8 *bytes = what;
    while (length > 0) {
        long put = write(1, bytes, length);
        if (put <= 0)
            exit(1);
        bytes += put;
        length -= (u64)put;
    }
}

/* Room for so many bytes, never a null pointer; what was at the old place may move. */
static void *room(void *old, u64 length)
{
    void *bytes = realloc(old, length + 1);
    if (!bytes)
        exit(1);
    return bytes;
}

static double now(void)
{
    struct timespec t;
    clock_gettime(1, &t);
    return (double)t.seconds * 1e9 + (double)t.nanoseconds;
}

/* The best of many rounds: others use the machine too, and they only ever add time. */
static double nanoseconds(const u8 *file, u64 length)
{
    enum { ROUNDS = 50, TIMES = 1000 };
    double best = 1e300;
    volatile u8 seen;
    for (int round = 0; round < ROUNDS; round++) {
        double began = now();
        for (int i = 0; i < TIMES; i++)
            seen = hsd_accept(file, length).refusal;
        double took = (now() - began) / TIMES;
        if (took < best)
            best = took;
    }
    (void)seen;
    return best;
}

/* Answers wait until they fill this, or until a history ends. */
static u8 answers[64 * 1024];
static u64 waiting;

static void flush(void)
{
    write_all(answers, waiting);
    waiting = 0;
}

static void answer(const void *what, u64 length)
{
    if (length > sizeof answers - waiting)
        flush();
    if (length > sizeof answers) {
        write_all(what, length);
        return;
    }
    memcpy(answers + waiting, what, length);
    waiting += length;
}

/* Without the padding, which may hold anything. */
static void answer_verdict(HsdAnswer told)
{
    answer(&told.refusal, sizeof told.refusal);
    answer(&told.block, sizeof told.block);
    answer(&told.offset, sizeof told.offset);
}

static void accepted(const u8 *file, u64 length, int timed)
{
    if (timed) {
        double took = nanoseconds(file, length);
        answer(&took, sizeof took);
    } else {
        HsdFile out;
        memset(&out, 0, sizeof out);
        out = hsd_accept(file, length);
        answer(&out, sizeof out);
    }
}

/* One frame, step by step. These numbers say how many there are of each: files' lengths follow, eight bytes each, then
   frame, leader, steps, marks, and the bytes of all files. A step to open or to offer answers a verdict and, where it
   is watched, frame and marks. A line answers how many counts it has and the output, filled with 0xaa before. At the end
   come frame and marks. */
typedef struct History {
    HsdSlate slate;
    u64 watched, files, frame, leader, steps, marks, out;
} History;

typedef struct Step {
    u16 kind, of;
} Step;

enum { OPEN, OFFER, LINE };

/* Where what is lent stands. */
typedef struct Stage {
    u64 *lengths;
    u16 *frame, *leader;
    Step *steps;
    u8 *marks, *files;
    u16 *out;
} Stage;

static Stage stage_of(History *h)
{
    static u16 *out;
    Stage s;
    s.lengths = (u64 *)(h + 1);
    s.frame = (u16 *)(s.lengths + h->files);
    s.leader = s.frame + h->frame;
    s.steps = (Step *)(s.leader + h->leader);
    s.marks = (u8 *)(s.steps + h->steps);
    s.files = s.marks + h->marks;
    s.out = out = room(out, 2 * h->out);
    return s;
}

static HsdAnswer offer(const History *h, Stage s, u16 number)
{
    u8 *file = s.files;
    for (u16 i = 0; i < number; i++)
        file += s.lengths[i];
    return hsd_offer(h->slate, s.marks, h->marks, s.frame, h->frame, file, s.lengths[number]);
}

static void ask_line(const History *h, Stage s, u16 line)
{
    memset(s.out, 0xaa, 2 * h->out);
    u64 counts = hsd_line(h->slate, s.marks, h->marks, s.frame, h->frame, s.leader, h->leader, line, s.out, h->out);
    answer(&counts, sizeof counts);
    answer(s.out, 2 * h->out);
}

static void show(const History *h, Stage s)
{
    answer(s.frame, 2 * h->frame);
    answer(s.marks, h->marks);
}

static void take(const History *h, Stage s, Step step)
{
    if (step.kind == LINE) {
        ask_line(h, s, step.of);
        return;
    }
    HsdAnswer told = step.kind == OFFER ? offer(h, s, step.of)
                                        : hsd_open(h->slate, s.marks, h->marks, s.frame, h->frame);
    answer_verdict(told);
    if (h->watched)
        show(h, s);
}

static void play(History *h)
{
    Stage s = stage_of(h);
    for (u64 i = 0; i < h->steps; i++)
        take(h, s, s.steps[i]);
    show(h, s);
    flush();
}

/* What of a question has not been read yet. */
typedef struct Rest {
    u8 *bytes;
    u64 length;
} Rest;

/* The next so many bytes; too few end the bridge. */
static u8 *next(Rest *rest, u64 length)
{
    u8 *bytes = rest->bytes;
    if (length > rest->length)
        exit(1);
    rest->bytes += length;
    rest->length -= length;
    return bytes;
}

static u64 next_number(Rest *rest)
{
    u64 number;
    memcpy(&number, next(rest, sizeof number), sizeof number);
    return number;
}

static void end(Rest rest)
{
    if (rest.length > 0)
        exit(1);
}

static void ask_quality(Rest rest)
{
    u8 flag = *next(&rest, 1);
    end(rest);
    HsdQuality told = hsd_quality(flag);
    answer(&told, sizeof told);
}

static void ask_reel(Rest rest)
{
    HsdReel told = hsd_reel_open(rest.bytes, rest.length);
    answer(&told, sizeof told);
}

static void ask_part(Rest rest)
{
    u16 number = (u16)next_number(&rest);
    HsdPart told = hsd_reel_part(rest.bytes, rest.length, number);
    answer(&told, sizeof told);
}

static void ask_trailer(Rest rest)
{
    u64 files = next_number(&rest);
    end(rest);
    u64 told = hsd_reel_trailer(files);
    answer(&told, sizeof told);
}

static void ask_frame_number(Rest rest)
{
    u32 first_day = (u32)next_number(&rest);
    u16 first_timeline = (u16)next_number(&rest);
    u32 day = (u32)next_number(&rest);
    u16 timeline = (u16)next_number(&rest);
    end(rest);
    HsdFrameNumber told = hsd_frame_number(first_day, first_timeline, day, timeline);
    answer(&told, sizeof told);
}

static void ask_night(Rest rest)
{
    HsdRun run;
    memcpy(&run, next(&rest, sizeof run), sizeof run);
    HsdNight told = hsd_night_add(run, rest.bytes, rest.length);
    answer(&told, sizeof told);
}

static void ask_why(Rest rest)
{
    HsdSlate slate;
    memcpy(&slate, next(&rest, sizeof slate), sizeof slate);
    HsdWhy told = hsd_why(slate, rest.bytes, rest.length);
    answer(&told, sizeof told);
}

/* hsd_reel_write or hsd_reel_seal. */
typedef HsdAnswer Writer(const u8 *, u64, const u32 *, u64, u8 *, u64);

/* The lengths stand 24 bytes after the request's start, so they are aligned as it is. */
static void ask_writer(Rest rest, Writer *writer)
{
    static u8 *out;
    u64 lengths_length = next_number(&rest);
    u64 out_length = next_number(&rest);
    if (lengths_length > rest.length / sizeof(u32))
        exit(1);
    const u32 *lengths = (const u32 *)next(&rest, lengths_length * sizeof(u32));
    out = room(out, out_length);
    memset(out, 0xaa, out_length);
    answer_verdict(writer(rest.bytes, rest.length, lengths, lengths_length, out, out_length));
    answer(out, out_length);
}

/* Questions have numbers of their own: the length's two top bits have no more kinds to give. */
static void reply(u8 *request, u64 length)
{
    enum { QUALITY, REEL, PART, WRITE, SEAL, TRAILER, FRAME_NUMBER, NIGHT, WHY };
    Rest rest = { request, length };
    switch (next_number(&rest)) {
    case QUALITY: ask_quality(rest); break;
    case REEL: ask_reel(rest); break;
    case PART: ask_part(rest); break;
    case WRITE: ask_writer(rest, hsd_reel_write); break;
    case SEAL: ask_writer(rest, hsd_reel_seal); break;
    case TRAILER: ask_trailer(rest); break;
    case FRAME_NUMBER: ask_frame_number(rest); break;
    case NIGHT: ask_night(rest); break;
    case WHY: ask_why(rest); break;
    default: exit(1);
    }
}

int main(void)
{
    enum { FILE, HISTORY, TIMED, ASK };
    void *request = 0;
    u64 length;
    while (read_all(&length, 8)) {
        u64 kind = length >> 62;
        length = length << 2 >> 2;
        request = room(request, length);
        if (!read_all(request, length))
            return 1;
        if (kind == ASK)
            reply(request, length);
        else if (kind == HISTORY)
            play(request);
        else
            accepted(request, length, kind == TIMED);
    }
    flush();
    return 0;
}
