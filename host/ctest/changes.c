/* Tries files that change while they are read: `changes FILE`, a file to write. The `read` that file.c calls is this test's own: it gives
   few bytes at a time, can fail, and meddles with the file between two reads. Its `statx` can keep things from it. */
#include <errno.h>
#include <fcntl.h>
#include <string.h>
#include <sys/stat.h>
#include <sys/wait.h>
#include <time.h>
#include <unistd.h>

#include "test.h"

static ssize_t own_read(int from, void *to, size_t room);
static int own_statx(int from, const char *name, int flags, unsigned asked, struct statx *about);
#define read own_read
#define statx(...) own_statx(__VA_ARGS__)
#include "../command/file.c"
#undef read
#undef statx

enum { LENGTH = 100000, LONG = 300000, PIECE = 30000, NOWHERE = LONG };

static const char *path;
static unsigned turn, meddling_turn;
static void (*meddle)(void);
static int failure;       /* of the third read */
static unsigned withheld; /* by statx: told as if it never changed */
static char complaint[256];

static ssize_t own_read(int from, void *to, size_t room)
{
    turn++;
    if (meddle && turn == meddling_turn)
        meddle();
    if (failure && turn == 3) {
        errno = failure;
        return -1;
    }
    return read(from, to, room < PIECE ? room : PIECE);
}

static int own_statx(int from, const char *name, int flags, unsigned asked, struct statx *about)
{
    int status = statx(from, name, flags, asked, about);
    if (withheld & STATX_SIZE)
        about->stx_size = LENGTH;
    if (withheld & STATX_MTIME)
        about->stx_mtime = (struct statx_timestamp){0};
    if (withheld & STATX_CTIME)
        about->stx_ctime = (struct statx_timestamp){0};
    return status;
}

void complain(const char *about, const char *what)
{
    snprintf(complaint, sizeof complaint, "%s: %s", about, what);
}

static uint8_t byte_at(size_t place)
{
    return (uint8_t)(place * place >> 8);
}

/* So many bytes, of which the one at a place is another. */
static bool write_bytes(int to, size_t length, size_t place)
{
    static uint8_t bytes[LONG];
    for (size_t i = 0; i < length; i++)
        bytes[i] = (uint8_t)(byte_at(i) + (i == place));
    for (size_t done = 0; done < length;) {
        ssize_t put = write(to, bytes + done, length - done);
        if (put < 0)
            return false;
        done += (size_t)put;
    }
    return true;
}

static void rewrite(size_t place)
{
    int to = open(path, O_WRONLY | O_CREAT, 0600);
    CHECK(to >= 0 && write_bytes(to, LENGTH, place) && ftruncate(to, LENGTH) == 0 && close(to) == 0);
}

/* Gives the file a time long past: then the next change shows, whether or not the file system's clock has ticked. */
static void age(void)
{
    const struct timespec past[] = {{.tv_sec = 1000000000, .tv_nsec = 7}, {.tv_sec = 1000000000, .tv_nsec = 7}};
    CHECK(utimensat(AT_FDCWD, path, past, 0) == 0);
}

static void tick(void)
{
    const struct timespec while_it_ticks = {.tv_sec = 0, .tv_nsec = 50000000};
    nanosleep(&while_it_ticks, NULL);
}

static void grow(void)
{
    CHECK(truncate(path, LENGTH + 1) == 0);
}

static void shrink(void)
{
    CHECK(truncate(path, LENGTH - 1) == 0);
}

static void shrink_much(void)
{
    CHECK(truncate(path, 1) == 0);
}

static void grow_and_shrink(void)
{
    grow();
    CHECK(truncate(path, LENGTH) == 0);
}

static void change_front(void)
{
    rewrite(0);
}

static void change_end(void)
{
    rewrite(LENGTH - 1);
}

/* Length and time of the bytes are as they were; that of the file's own record is not. */
static void change_secretly(void)
{
    tick();
    rewrite(LENGTH - 1);
    age();
}

static void change_mode(void)
{
    tick();
    CHECK(chmod(path, 0640) == 0 && chmod(path, 0600) == 0);
}

static bool opens(const char *name, File *file)
{
    turn = 0;
    complaint[0] = '\0';
    return open_file(name, file);
}

static bool is_whole(const File *file, size_t length)
{
    size_t right = 0;
    for (size_t i = 0; i < file->length; i++)
        right += file->bytes[i] == byte_at(i);
    return file->length == length && right == length && complaint[0] == '\0';
}

/* A file that is left alone is taken as it is, also when a read is interrupted. */
static void check_quiet(void)
{
    File file;
    rewrite(NOWHERE);
    for (int i = 0; i < 2; i++) {
        failure = i == 0 ? 0 : EINTR;
        CHECK(opens(path, &file) && is_whole(&file, LENGTH) && turn == (i == 0 ? 4 : 5));
        close_file(&file);
    }
    failure = EIO;
    CHECK(!opens(path, &file) && strstr(complaint, strerror(EIO)));
    failure = 0;
}

static void check_change(void (*way)(void), unsigned when)
{
    File file;
    char expected[256];
    age();
    meddle = way;
    meddling_turn = when;
    snprintf(expected, sizeof expected, "%s: changed while it was read", path);
    CHECK(!opens(path, &file) && strcmp(complaint, expected) == 0);
    meddle = NULL;
}

static void check_changes(void)
{
    static void (*const ways[])(void) = {grow,         shrink,     shrink_much,     grow_and_shrink,
                                         change_front, change_end, change_secretly, change_mode};
    for (size_t i = 0; i < sizeof ways / sizeof *ways; i++)
        for (unsigned when = 1; when <= 4; when++) {
            rewrite(NOWHERE);
            check_change(ways[i], when);
        }
}

/* Each thing that is compared tells a change by itself. */
static void check_alone(void)
{
    rewrite(NOWHERE);
    withheld = STATX_MTIME | STATX_CTIME;
    check_change(grow, 2);
    rewrite(NOWHERE);
    withheld = STATX_SIZE | STATX_CTIME;
    check_change(change_end, 2);
    rewrite(NOWHERE);
    withheld = STATX_SIZE | STATX_MTIME;
    check_change(change_secretly, 2);
    rewrite(NOWHERE);
    withheld = STATX_SIZE | STATX_MTIME | STATX_CTIME;
    check_change(shrink, 2);
    withheld = 0;
}

static void check_empty(void)
{
    File file;
    CHECK(truncate(path, 0) == 0);
    CHECK(opens(path, &file) && is_whole(&file, 0) && file.bytes);
    close_file(&file);
    check_change(change_end, 1);
}

/* A pipe tells no length: the room for it grows. */
static void check_pipe(void)
{
    File file;
    int ends[2];
    char end[32];
    CHECK(pipe(ends) == 0);
    pid_t child = fork();
    if (child == 0)
        _exit(close(ends[0]) != 0 || !write_bytes(ends[1], LONG, NOWHERE));
    close(ends[1]);
    snprintf(end, sizeof end, "/dev/fd/%d", ends[0]);
    CHECK(child > 0 && opens(end, &file) && is_whole(&file, LONG));
    close_file(&file);
    close(ends[0]);
    CHECK(waitpid(child, NULL, 0) == child);
}

int main(int count, char **words)
{
    if (count != 2)
        return 2;
    path = words[1];
    check_quiet();
    check_changes();
    check_alone();
    check_empty();
    check_pipe();
    return checked("changes");
}
