/* An output, filled by a function that it is handed. A file is replaced only by a whole one: until then it is a part, beside the
   file and under a name of its own. */
#include <errno.h>
#include <fcntl.h>
#include <inttypes.h>
#include <signal.h>
#include <stdlib.h>
#include <string.h>
#include <sys/random.h>
#include <unistd.h>

#include "command.h"

/* The part and its folder, for the signals that would leave it behind. */
static char part[32];
static int folder;

static void drop_part(int number)
{
    unlinkat(folder, part, 0);
    signal(number, SIG_DFL);
    raise(number);
}

/* A signal that is ignored, as nohup has it, stays so. */
static void heed_signals(void)
{
    static const int ends[] = {SIGINT, SIGTERM, SIGHUP, SIGQUIT};
    for (size_t i = 0; i < sizeof ends / sizeof *ends; i++) {
        struct sigaction now;
        if (sigaction(ends[i], NULL, &now) == 0 && now.sa_handler != SIG_IGN)
            signal(ends[i], drop_part);
    }
}

static bool fill(const Output *output, FILE *to, bool progress)
{
    return output->fill(to, output->what, progress) && fflush(to) == 0;
}

/* Closes what was written; errno is that of what failed first. */
static bool close_written(FILE *to, bool good)
{
    int first = errno;
    bool closed = fclose(to) == 0;
    if (!good)
        errno = first;
    return closed && good;
}

/* Whether a file is one of the command's own streams, and that can be written. */
static bool is_stream(int stream, const struct statx *about)
{
    struct statx own;
    return (fcntl(stream, F_GETFL) & O_ACCMODE) != O_RDONLY &&
           statx(stream, "", AT_EMPTY_PATH, STATX_TYPE | STATX_INO, &own) == 0 && same_file(&own, about);
}

/* Whether what is there is written to as it is, and not replaced. */
static bool is_written_through(const struct statx *there)
{
    return !S_ISREG(there->stx_mode) || is_stream(STDOUT_FILENO, there) || is_stream(STDERR_FILENO, there);
}

bool is_error_stream(const char *name)
{
    struct statx there;
    return statx(AT_FDCWD, name, 0, STATX_TYPE | STATX_INO, &there) == 0 && is_stream(STDERR_FILENO, &there);
}

/* Writes to what is there, as it is. A stream of the command's own goes on where it is: at its end, if it is appended to. */
static bool write_through(const Output *output, const struct statx *there)
{
    bool is_output = is_stream(STDOUT_FILENO, there), is_error = is_stream(STDERR_FILENO, there);
    int own = is_output ? STDOUT_FILENO : STDERR_FILENO;
    int to = is_output || is_error ? dup(own) : open(output->name, O_WRONLY | O_CLOEXEC);
    FILE *file = to >= 0 ? fdopen(to, "w") : NULL;
    bool progress = output->progress && !is_error; /* it would stand within the output */
    return file && close_written(file, fill(output, file, progress));
}

/* Opens a part in the folder of a name. Chance names it, so that nobody else has that name, and it is short, so that it fits
   wherever the output's does. */
static int open_part(const char *name, mode_t mode)
{
    uint64_t chance;
    const char *slash = strrchr(name, '/');
    char *path = slash ? strndup(name, (size_t)(slash - name) + 1) : strdup(".");
    folder = path ? open(path, O_PATH | O_CLOEXEC) : -1;
    free(path);
    if (folder < 0 || getrandom(&chance, sizeof chance, 0) != sizeof chance)
        return -1;
    snprintf(part, sizeof part, ".panulimbe-%016" PRIx64, chance);
    heed_signals();
    return openat(folder, part, O_WRONLY | O_CREAT | O_EXCL | O_CLOEXEC, mode);
}

/* Gives the part its name. What must be kept is kept even if it came meanwhile: a file system that cannot rename so can link,
   which replaces nothing either. */
static bool name_part(const char *name, bool keeps)
{
    const char *slash = strrchr(name, '/');
    const char *last = slash ? slash + 1 : name;
    if (renameat2(folder, part, folder, last, keeps ? RENAME_NOREPLACE : 0) == 0)
        return true;
    return keeps && errno == EINVAL && linkat(folder, part, folder, last, 0) == 0 && unlinkat(folder, part, 0) == 0;
}

/* Writes a part, which takes its name when it is whole and on the disk, and the mode of what it replaces, if anything. */
static bool write_part(const Output *output, const char *name, const struct statx *old)
{
    int to = open_part(name, old ? old->stx_mode & 0777U : 0666);
    FILE *file = to >= 0 ? fdopen(to, "w") : NULL;
    bool good = file && fill(output, file, output->progress);
    good = good && (!old || fchmod(to, old->stx_mode & 07777U) == 0) && fsync(to) == 0;
    good = file && close_written(file, good) && name_part(name, output->keeps);
    int fault = errno;
    if (to >= 0 && !good)
        unlinkat(folder, part, 0);
    if (folder >= 0)
        close(folder);
    errno = fault;
    return good;
}

/* Replaces the file that a link leads to: the link stays. */
static bool write_linked(const Output *output, const struct statx *old)
{
    struct statx found;
    char *real = realpath(output->name, NULL);
    bool good = real && statx(AT_FDCWD, real, 0, STATX_TYPE | STATX_INO, &found) == 0;
    if (good && !same_file(&found, old)) {
        errno = ENOENT; /* a link below /proc may lead to a file that has lost the name */
        good = false;
    }
    good = good && write_part(output, real, old);
    free(real);
    return good;
}

static bool is_link(const char *name)
{
    struct statx itself;
    return statx(AT_FDCWD, name, AT_SYMLINK_NOFOLLOW, STATX_TYPE, &itself) == 0 && S_ISLNK(itself.stx_mode);
}

/* What the output's name stands for, as it treats links. */
static bool find_there(const Output *output, struct statx *there)
{
    int follow = output->itself ? AT_SYMLINK_NOFOLLOW : 0;
    return statx(AT_FDCWD, output->name, follow, STATX_TYPE | STATX_MODE | STATX_INO, there) == 0;
}

/* Writes the output in the way that suits what is there; errno tells of a failure. */
static bool write_there(const Output *output)
{
    struct statx there;
    if (!find_there(output, &there))
        return errno == ENOENT && write_part(output, output->name, NULL);
    if (output->itself)
        return write_part(output, output->name, S_ISREG(there.stx_mode) ? &there : NULL);
    if (is_written_through(&there))
        return write_through(output, &there);
    return is_link(output->name) ? write_linked(output, &there) : write_part(output, output->name, &there);
}

static const char is_kept[] = "is there already; --force replaces it";

bool is_free(const Output *output)
{
    struct statx there;
    if (!output->keeps || !find_there(output, &there) || (!output->itself && is_written_through(&there)))
        return true;
    complain(output->name, is_kept);
    return false;
}

bool write_output(const Output *output)
{
    struct statx there;
    if (!find_there(output, &there) && errno == ENOENT && is_link(output->name)) {
        complain(output->name, "a link to nothing");
        return false;
    }
    bool good = write_there(output);
    if (!good)
        complain(output->name, output->keeps && errno == EEXIST ? is_kept : strerror(errno));
    return good;
}
