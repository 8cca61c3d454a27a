/* panulimbe reel: whole files in one; which second word, and what these share. */
#include <string.h>
#include <unistd.h>

#include "reel.h"

bool parse_reel_wish(int count, char **words, char letter, const char *name, ReelWish *wish)
{
    enum { WHERE = LONG_ONLY, FORCE, PROGRESS };
    const char letters[] = {':', letter, ':', '\0'};
    const struct option options[] = {
        {name, required_argument, NULL, WHERE},
        {"force", no_argument, NULL, FORCE},
        {"progress", no_argument, NULL, PROGRESS},
        {NULL, 0, NULL, 0},
    };
    int option;
    *wish = (ReelWish){.progress = isatty(STDERR_FILENO)};
    while ((option = next_option(count, words, letters, options)) != -1)
        if (option == WHERE || option == letter)
            wish->where = optarg;
        else if (option == FORCE)
            wish->force = true;
        else if (option == PROGRESS)
            wish->progress = true;
        else
            return false;
    return true;
}

/* Of a reel that is refused for one of its files, the first such file. The search ends at any rate: beyond the last file there
   are no bytes, and no bytes are refused too. */
static uint16_t find_refused(const File *reel)
{
    uint16_t number = 0;
    HsdPart part;
    do {
        number++;
        part = hsd_reel_part(reel->bytes, reel->length, number);
    } while (!hsd_accept(reel->bytes + part.offset, part.length).refusal);
    return number;
}

/* A file's refusal counts its byte from where that file begins. */
static void say_reel_refused(const char *name, const File *reel, HsdReel found)
{
    HsdAnswer answer = {.refusal = found.refusal, .block = found.block, .offset = found.offset};
    if (answer.refusal == HSD_REEL) {
        say_refused(name, answer);
        return;
    }
    uint16_t number = find_refused(reel);
    HsdPart part = hsd_reel_part(reel->bytes, reel->length, number);
    say("%s: part %u, from byte %u: %s\n", shown(name), number, part.offset, refusal_words(answer));
}

int judge_reel(const char *name, File *reel, uint16_t *files)
{
    if (!open_reel(name, reel))
        return UNUSABLE;
    HsdReel answer = hsd_reel_open(reel->bytes, reel->length);
    *files = answer.files;
    if (!answer.refusal)
        return GOOD;
    say_reel_refused(name, reel, answer);
    close_file(reel);
    return REFUSED;
}

bool write_bytes(FILE *to, const void *file, bool progress)
{
    const File *bytes = file;
    (void)progress; /* it is shown file by file */
    return fwrite(bytes->bytes, 1, bytes->length, to) == bytes->length;
}

static void say_files(const char *name, const File *reel, uint16_t files)
{
    for (uint16_t number = 1; number <= files; number++) {
        HsdPart part = hsd_reel_part(reel->bytes, reel->length, number);
        HsdFile found = hsd_accept(reel->bytes + part.offset, part.length);
        say_listed(name, &found);
    }
}

int list_reel(int count, char **words)
{
    File reel;
    uint16_t files;
    if (has_options(count, words) || count - optind != 1)
        return misused("reel list", "one reel");
    if (!spares_inputs(NULL, 1, words + optind))
        return UNUSABLE;
    int status = judge_reel(words[optind], &reel, &files);
    if (status != GOOD)
        return status;
    say_files(words[optind], &reel, files);
    close_file(&reel);
    return GOOD;
}

int reel(int count, char **words)
{
    static const struct {
        const char *name;
        int (*run)(int count, char **words);
    } seconds[] = {{"write", write_reel}, {"list", list_reel}, {"extract", extract_reel}};
    for (size_t i = 0; count >= 2 && i < sizeof seconds / sizeof *seconds; i++)
        if (strcmp(words[1], seconds[i].name) == 0)
            return seconds[i].run(count - 1, words + 1);
    return misused("reel", "write, list or extract");
}
