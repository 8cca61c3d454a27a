/* A file's bytes, read into memory of the command's own: what the library is lent must not change while it looks at it, and
   a mapped file changes with whoever writes to it. */
#include <errno.h>
#include <fcntl.h>
#include <stdlib.h>
#include <string.h>
#include <sys/mman.h>
#include <unistd.h>

#include "command.h"

/* One byte more than any good file has: the greatest header and 2 x 22,000 x 22,000 bytes of counts. What comes after
   cannot change the answer, so a device without an end has one too. */
enum { ENOUGH = 394563 + 968000000 + 1 };

/* The room for a file that does not tell its length; it doubles as bytes come. */
enum { FIRST_ROOM = 65536 };

bool make_room(File *file, size_t room)
{
    if (room <= file->room)
        return true;
    uint8_t *bytes = realloc(file->bytes, room);
    if (!bytes)
        return false;
    file->bytes = bytes;
    file->room = room;
    return true;
}

/* Reads on to the end, or until so many bytes are there. */
static bool read_bytes(int from, size_t most, File *file)
{
    while (file->length < most) {
        if (file->length == file->room && !make_room(file, 2 * file->room < most ? 2 * file->room : most))
            return false;
        size_t room = file->room < most ? file->room : most;
        ssize_t got = read(from, file->bytes + file->length, room - file->length);
        if (got == 0)
            return true;
        if (got < 0 && errno != EINTR)
            return false;
        file->length += got > 0 ? (size_t)got : 0;
    }
    return true;
}

/* What is too long for a reel is refused by its length alone. So the library is lent as many zeros, which take no memory while
   nobody writes to them, and not a byte is read. */
static bool lend_zeros(size_t length, File *file)
{
    void *zeros = mmap(NULL, length, PROT_READ, MAP_PRIVATE | MAP_ANONYMOUS | MAP_NORESERVE, -1, 0);
    if (zeros == MAP_FAILED)
        return false;
    *file = (File){.bytes = zeros, .length = length, .is_lent = true};
    return true;
}

static bool look(int from, struct statx *about)
{
    return statx(from, "", AT_EMPTY_PATH, STATX_TYPE | STATX_SIZE | STATX_MTIME | STATX_CTIME, about) == 0;
}

static bool same_time(struct statx_timestamp one, struct statx_timestamp other)
{
    return one.tv_sec == other.tv_sec && one.tv_nsec == other.tv_nsec;
}

static bool is_unchanged(const struct statx *before, const struct statx *after)
{
    return before->stx_size == after->stx_size && same_time(before->stx_mtime, after->stx_mtime) &&
           same_time(before->stx_ctime, after->stx_ctime);
}

/* What is wrong with a file, or NULL; its bytes go after those that are there, and no more than enough of them. A file of length
   0 may have bytes all the same, as those below /proc. */
static const char *read_file(int from, size_t enough, File *file)
{
    struct statx before, after;
    size_t start = file->length;
    if (!look(from, &before))
        return strerror(errno);
    bool is_plain = S_ISREG(before.stx_mode), is_told = is_plain && before.stx_size > 0;
    if (is_told && enough == BEYOND_REELS && before.stx_size >= enough)
        return lend_zeros(enough, file) ? NULL : strerror(errno);
    size_t most = start + (is_told && before.stx_size < enough ? (size_t)before.stx_size : enough);
    if (!make_room(file, is_told ? most : start + FIRST_ROOM) || !read_bytes(from, most, file) ||
        (is_plain && !look(from, &after)))
        return strerror(errno);
    if (is_plain && ((is_told && file->length < most) || !is_unchanged(&before, &after)))
        return "changed while it was read";
    return NULL;
}

static bool add_bytes(const char *name, size_t enough, File *file)
{
    int from = open(name, O_RDONLY | O_CLOEXEC);
    const char *fault = from < 0 ? strerror(errno) : read_file(from, enough, file);
    if (fault)
        complain(name, fault);
    if (from >= 0)
        close(from);
    return !fault;
}

bool add_file(const char *name, File *file)
{
    size_t left = BEYOND_REELS - file->length;
    return add_bytes(name, left < ENOUGH ? left : ENOUGH, file);
}

static bool open_bytes(const char *name, size_t enough, File *file)
{
    *file = (File){0};
    bool good = add_bytes(name, enough, file);
    if (!good)
        close_file(file);
    return good;
}

bool open_file(const char *name, File *file)
{
    return open_bytes(name, ENOUGH, file);
}

bool open_reel(const char *name, File *reel)
{
    return open_bytes(name, BEYOND_REELS, reel);
}

void close_file(File *file)
{
    if (file->is_lent)
        munmap(file->bytes, file->length);
    else
        free(file->bytes);
    *file = (File){0};
}
