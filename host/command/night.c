/* panulimbe night: the counts of many files by what they read as, and the files by what became of them. */
#include <inttypes.h>

#include "command.h"

/* Whether the words are right; the files are what is left of them. */
static bool parse_wish(int count, char **words, bool *progress)
{
    enum { PROGRESS = LONG_ONLY };
    static const struct option options[] = {{"progress", no_argument, NULL, PROGRESS}, {NULL, 0, NULL, 0}};
    int option;
    while ((option = next_option(count, words, ":", options)) != -1) {
        if (option != PROGRESS)
            return false;
        *progress = true;
    }
    return optind < count;
}

/* Adds a file to the run and says what became of it. One that cannot be read has no line and is in no total. */
static int add_to(const char *name, const File *file, void *with)
{
    HsdRun *run = with;
    if (!file)
        return UNUSABLE;
    HsdNight night = hsd_night_add(*run, file->bytes, file->length);
    *run = night.run;
    if (night.refusal) {
        say_refused(name, (HsdAnswer){.refusal = night.refusal, .block = night.block, .offset = night.offset});
        return REFUSED;
    }
    say("%s: extra %" PRId64 "\n", shown(name), night.extra);
    return GOOD;
}

static void say_totals(const HsdRun *run)
{
    say("radiance %" PRIu64 "\n", run->radiance);
    say("error pixels %" PRIu64 "\n", run->error);
    say("outside %" PRIu64 "\n", run->outside);
    say("over range %" PRIu64 "\n", run->over);
    say("uncalibrated %" PRIu64 "\n", run->uncalibrated);
    say("accepted %" PRIu32 "\n", run->accepted);
    for (size_t refusal = 0; refusal < sizeof run->refused / sizeof *run->refused; refusal++)
        if (run->refused[refusal])
            say("refused %zu %s: %" PRIu32 "\n", refusal, refusal_name((uint8_t)refusal), run->refused[refusal]);
}

int night(int count, char **words)
{
    bool progress = false;
    HsdRun run = {0};
    if (!parse_wish(count, words, &progress))
        return misused("night", "at least one file");
    if (!spares_inputs(NULL, count - optind, words + optind))
        return UNUSABLE;
    int worst = each_file(count - optind, words + optind, progress, add_to, &run);
    say_totals(&run);
    return worst;
}
