/* No file that is read is written to: neither by an output nor by what the command says. */
#include <fcntl.h>
#include <unistd.h>

#include "command.h"

bool same_file(const struct statx *one, const struct statx *other)
{
    /* one disk may have several names, each with an inode of its own */
    if (S_ISBLK(one->stx_mode) && S_ISBLK(other->stx_mode))
        return one->stx_rdev_major == other->stx_rdev_major && one->stx_rdev_minor == other->stx_rdev_minor;
    return one->stx_dev_major == other->stx_dev_major && one->stx_dev_minor == other->stx_dev_minor &&
           one->stx_ino == other->stx_ino;
}

/* Whether what is written to a file, by its number or name, is lost to one of these. A pipe or a terminal loses nothing. */
static bool is_one_of(int number, const char *name, int count, char **names)
{
    struct statx written, given;
    if (statx(number, name, AT_EMPTY_PATH, STATX_TYPE | STATX_INO, &written) != 0 ||
        !(S_ISREG(written.stx_mode) || S_ISBLK(written.stx_mode)))
        return false;
    for (int i = 0; i < count; i++)
        if (statx(AT_FDCWD, names[i], 0, STATX_TYPE | STATX_INO, &given) == 0 && same_file(&written, &given))
            return true;
    return false;
}

static bool is_empty_file(int number)
{
    struct statx about;
    return statx(number, "", AT_EMPTY_PATH, STATX_TYPE | STATX_SIZE, &about) == 0 && S_ISREG(about.stx_mode) &&
           about.stx_size == 0;
}

bool spares_inputs(const char *output, int count, char **names)
{
    static const char fault[] = "is one of the inputs; nothing was written";
    bool is_error = is_one_of(STDERR_FILENO, "", count, names);
    if (is_error && !is_empty_file(STDERR_FILENO))
        return false; /* without a word: it would go into the input */
    if (is_error)
        complain("standard error", fault);
    else if (is_one_of(STDOUT_FILENO, "", count, names))
        complain("standard output", fault);
    else if (output && is_one_of(AT_FDCWD, output, count, names))
        complain(output, fault);
    else
        return true;
    return false;
}
