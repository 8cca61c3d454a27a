/* The subcommands that go through many files: list, quality, night, frame, why. */
#include "command.h"

static int look_at(const char *name, Look *look, void *with)
{
    File file;
    if (!open_file(name, &file))
        return look(name, NULL, with);
    int status = look(name, &file, with);
    close_file(&file);
    return status;
}

int each_file(int count, char **names, bool progress, Look *look, void *with)
{
    int worst = GOOD;
    for (int i = 0; i < count; i++) {
        int status = look_at(names[i], look, with);
        worst = status > worst ? status : worst;
        if (progress)
            show_progress("file", (unsigned)i + 1, (unsigned)count);
    }
    return worst;
}

static int judge(const char *name, const File *file, void *with)
{
    SayLine **say_line = with;
    if (!file) {
        (*say_line)(name, NULL);
        return UNUSABLE;
    }
    HsdFile found = hsd_accept(file->bytes, file->length);
    (*say_line)(name, &found);
    return found.refusal ? REFUSED : GOOD;
}

int each_judged(int count, char **words, SayLine *say_line)
{
    if (has_options(count, words) || optind == count)
        return misused(words[0], "at least one file");
    if (!spares_inputs(NULL, count - optind, words + optind))
        return UNUSABLE;
    return each_file(count - optind, words + optind, false, judge, &say_line);
}
