/* panulimbe list: the listing's line about each file. */
#include "command.h"

/* Every name has its line, in order, so that the lines can be told apart: that of an unreadable file is empty. */
void say_listed(const char *name, const HsdFile *f)
{
    char area[LETTERS];
    (void)name;
    if (!f) {
        say("\n");
        return;
    }
    if (f->refusal) {
        say("NO %u %u %u\n", f->refusal, f->block, f->offset);
        return;
    }
    put_letters(f->area, area);
    say("OK %u %u %04u %u %s %u %u %u %u %u\n", f->satellite, f->day, f->timeline, f->band, area, f->columns, f->lines,
        f->number, f->total, f->first_line);
}

int list(int count, char **words)
{
    return each_judged(count, words, say_listed);
}
