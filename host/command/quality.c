/* panulimbe quality: what quality flag 1 of each file says. */
#include "command.h"

static const char *word_of(uint8_t mark)
{
    switch (mark) {
    case HSD_NO: return "no";
    case HSD_YES: return "yes";
    default: return "unknown";
    }
}

static void say_marks(const char *name, HsdQuality q)
{
    say("%s: invalid=%s sun=%s moon=%s test=%s manoeuvre=%s unloading=%s solar_calibration=%s eclipse=%s\n", shown(name),
        word_of(q.invalid), word_of(q.sun), word_of(q.moon), word_of(q.test), word_of(q.manoeuvre), word_of(q.unloading),
        word_of(q.solar_calibration), word_of(q.eclipse));
}

/* A line bears its file's name, so that an unreadable file needs none. */
static void say_line(const char *name, const HsdFile *f)
{
    if (f && f->refusal)
        say_refused(name, refusal_of(f));
    else if (f)
        say_marks(name, hsd_quality(f->quality));
}

int quality(int count, char **words)
{
    return each_judged(count, words, say_line);
}
