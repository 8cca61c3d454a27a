/* panulimbe reel extract: the files of a reel, each under the name in its header. */
#include <errno.h>
#include <fcntl.h>
#include <stdlib.h>
#include <string.h>

#include "reel.h"

/* Where a file has its name, and how long that is, zeros included. No accepted file has a name that leads elsewhere. */
enum { LABEL = 114, LABEL_LENGTH = 128 };

/* The most files that a reel has. */
enum { MOST_FILES = 255 };

/* A reel that is taken apart. */
typedef struct Cut {
    char *name;
    File reel;
    uint16_t files;
    ReelWish wish;
    bool wanted[MOST_FILES + 1];
    char *path; /* has room for any file's */
} Cut;

static HsdPart part_of(const Cut *cut, uint16_t number)
{
    return hsd_reel_part(cut->reel.bytes, cut->reel.length, number);
}

static const char *label_of(const Cut *cut, uint16_t number)
{
    return (const char *)cut->reel.bytes + part_of(cut, number).offset + LABEL;
}

static bool is_repeated(const Cut *cut, uint16_t number)
{
    const char *label = label_of(cut, number);
    for (uint16_t earlier = 1; earlier < number; earlier++)
        if (strncmp(label_of(cut, earlier), label, LABEL_LENGTH) == 0)
            return true;
    return false;
}

/* Room for the folder, a slash, the name, a dot with three digits, and the end. */
static bool make_path(Cut *cut)
{
    cut->path = malloc((cut->wish.where ? strlen(cut->wish.where) : 0) + 1 + LABEL_LENGTH + 4 + 1);
    if (!cut->path)
        complain("the reel", strerror(errno));
    return cut->path;
}

/* Where a file goes: good until the next call. */
static const char *path_of(const Cut *cut, uint16_t number)
{
    const char *folder = cut->wish.where ? cut->wish.where : "";
    bool has_slash = !*folder || folder[strlen(folder) - 1] == '/';
    int length = sprintf(cut->path, "%s%s%.*s", folder, has_slash ? "" : "/", LABEL_LENGTH, label_of(cut, number));
    if (is_repeated(cut, number))
        sprintf(cut->path + length, ".%u", number);
    return cut->path;
}

/* Marks the files of these numbers, or all for none; complains of a number that the reel does not have. */
static bool choose(Cut *cut, int count, char **numbers)
{
    unsigned number;
    memset(cut->wanted, count == 0, sizeof cut->wanted);
    for (int i = 0; i < count; i++) {
        if (!parse_number(numbers[i], 1, cut->files, &number)) {
            complain(numbers[i], "not a file of this reel");
            return false;
        }
        cut->wanted[number] = true;
    }
    return true;
}

static bool has_folder(const Cut *cut)
{
    struct statx about;
    const char *folder = cut->wish.where;
    if (!folder)
        return true;
    bool is_there = statx(AT_FDCWD, folder, 0, STATX_TYPE, &about) == 0;
    if (is_there && S_ISDIR(about.stx_mode))
        return true;
    complain(folder, strerror(is_there ? ENOTDIR : errno));
    return false;
}

static Output output_of(const Cut *cut, uint16_t number)
{
    return (Output){.name = path_of(cut, number), .fill = write_bytes, .keeps = !cut->wish.force, .itself = true};
}

/* Whether a file may go where it belongs, before any is written. */
static int check_place(Cut *cut, uint16_t number)
{
    Output output = output_of(cut, number);
    if (!spares_inputs(output.name, 1, &cut->name))
        return UNUSABLE;
    return is_free(&output) ? GOOD : UNWRITTEN;
}

static int check_places(Cut *cut)
{
    int worst = GOOD;
    for (uint16_t number = 1; number <= cut->files; number++) {
        int status = cut->wanted[number] ? check_place(cut, number) : GOOD;
        worst = status > worst ? status : worst;
    }
    return worst;
}

static bool write_file(const Cut *cut, uint16_t number)
{
    HsdPart part = part_of(cut, number);
    File file = {.bytes = cut->reel.bytes + part.offset, .length = part.length};
    Output output = output_of(cut, number);
    output.what = &file;
    if (!write_output(&output))
        return false;
    say("%s\n", shown(output.name));
    return true;
}

static unsigned tally(const Cut *cut)
{
    unsigned all = 0;
    for (uint16_t number = 1; number <= cut->files; number++)
        all += cut->wanted[number];
    return all;
}

static int write_files(const Cut *cut)
{
    unsigned done = 0, all = tally(cut);
    for (uint16_t number = 1; number <= cut->files; number++) {
        if (!cut->wanted[number])
            continue;
        if (!write_file(cut, number))
            return UNWRITTEN;
        if (cut->wish.progress)
            show_progress("file", ++done, all);
    }
    return GOOD;
}

/* Of a reel that is open. */
static int extract(Cut *cut, int count, char **numbers)
{
    if (!choose(cut, count, numbers) || !make_path(cut))
        return UNUSABLE;
    if (!has_folder(cut))
        return UNWRITTEN;
    int status = check_places(cut);
    return status == GOOD ? write_files(cut) : status;
}

int extract_reel(int count, char **words)
{
    Cut cut = {0};
    if (!parse_reel_wish(count, words, 'd', "directory", &cut.wish) || optind == count)
        return misused("reel extract", "a reel");
    cut.name = words[optind];
    if (!spares_inputs(NULL, 1, words + optind))
        return UNUSABLE;
    int status = judge_reel(cut.name, &cut.reel, &cut.files);
    if (status != GOOD)
        return status;
    status = extract(&cut, count - optind - 1, words + optind + 1);
    close_file(&cut.reel);
    free(cut.path);
    return status;
}
