/* The command `panulimbe`: which subcommand, and its help. */
#include <fcntl.h>
#include <signal.h>
#include <stdio.h>
#include <string.h>
#include <unistd.h>

#include "command.h"

static const char overview[] =
    "panulimbe list FILE..                                 one line about each file\n"
    "panulimbe quality FILE..                              what quality flag 1 of each file says\n"
    "panulimbe night FILE..                                what all counts of the files read as, in totals\n"
    "panulimbe frame --slate SLATE -o PICTURE FILE..       a frame put together from its segments\n"
    "panulimbe why --slate SLATE FILE..                    the first part in which a file is not of a slate\n"
    "panulimbe reading FILE LINE COLUMN                    what one count reads as\n"
    "panulimbe reel write -o REEL FILE..                   whole files in one reel\n"
    "panulimbe reel list REEL                              one line about each file of a reel\n"
    "panulimbe reel extract REEL [-d FOLDER] [NUMBER..]    the files of a reel, or some of them\n"
    "\n"
    "'panulimbe SUBCOMMAND --help' says more. Exit status: 0 all is well; 1 something was refused, differs or is\n"
    "missing; 2 wrong usage, or a file that cannot be read or changed meanwhile; 3 an output that cannot be\n"
    "written, or is there already and must not be replaced.\n";

static const char list_help[] =
    "panulimbe list FILE..\n"
    "\n"
    "Prints one line about each Himawari Standard Data file, in the order given:\n"
    "  OK 8 57210 0200 13 FLDK 4 2 1 2 1   a good file: satellite, day, timeline, band, area, columns,\n"
    "                                      lines, segment number, segment total, first line\n"
    "  NO 33 1 44                          a refused one: the refusal's number, its block, and the byte of the\n"
    "                                      file, from 0, at which the first field at fault begins\n"
    "  (an empty line)                     a file that cannot be read, or changed while it was read;\n"
    "                                      standard error says which and why\n"
    "\n"
    "Exit status: 0 all are good; 1 some file was refused; 2 wrong usage, or some file cannot be read or\n"
    "changed meanwhile; 3 standard output cannot be written.\n";

static const char quality_help[] =
    "panulimbe quality FILE..\n"
    "\n"
    "Prints one line about each file, in the order given: its name, then what quality flag 1 says, each mark\n"
    "as name=yes, no or unknown:\n"
    "  NAME: invalid=no sun=no moon=yes test=no manoeuvre=no unloading=no solar_calibration=no eclipse=no\n"
    "With invalid=yes the flag is not valid, and the other seven are unknown: neither yes nor no. For a refused\n"
    "file the line says why, as 'NAME: refused 33 timeline, block 1, byte 44'. One that cannot be read, or\n"
    "changed while it was read, has no line; standard error says which and why.\n"
    "\n"
    "Exit status: 0 all are good, whatever their marks; 1 some file was refused; 2 wrong usage, or some file\n"
    "cannot be read or changed meanwhile; 3 standard output cannot be written.\n";

static const char night_help[] =
    "panulimbe night [--progress] FILE..\n"
    "\n"
    "Prints one line about each file, in the order given: its extra, how many error pixels are found in it less\n"
    "those that block 10 lists, or why it is refused:\n"
    "  NAME: extra -3\n"
    "  NAME: refused 10 NAME, block 1, byte 114\n"
    "One that cannot be read, or changed while it was read, has no line and is in no total; standard error says\n"
    "which and why. Then it prints how many counts of the accepted files read as each kind, how many files were\n"
    "accepted, and how many refused, a line for each refusal that was given:\n"
    "  radiance 2931724\n"
    "  error pixels 12\n"
    "  outside 93264\n"
    "  over range 0\n"
    "  uncalibrated 0\n"
    "  accepted 1\n"
    "  refused 10 NAME: 2\n"
    "A run holds 4096 files. Each one after these is 'refused 19 RUN, block 0' and is in no total.\n"
    "  --progress         show on standard error how far it is\n"
    "\n"
    "Exit status: 0 all are accepted; 1 some file was refused; 2 wrong usage, or some file cannot be read or\n"
    "changed meanwhile; 3 standard output cannot be written.\n";

#define SLATE_OPTION                                                                                                    \
    "  --slate SLATE      satellite, date, timeline, band, area, columns, segments, lines per segment, as\n"            \
    "                     H08,20150707,0200,13,FLDK,5500,10,550; where segments differ, the lines of each, joined\n"    \
    "                     by plus signs, as H08,20150707,0200,13,FLDK,5500,4,900+1850+1850+900\n"

static const char frame_help[] =
    "panulimbe frame --slate SLATE -o PICTURE [--leader COUNT] [--progress] FILE..\n"
    "\n"
    "Offers the files, in the order given, to the frame that the slate names, says what became of each, and\n"
    "writes the frame as a 16-bit PGM picture.\n"
    SLATE_OPTION
    "  -o, --output PICTURE   white is the greatest count of the band; error pixels, counts outside the scan\n"
    "                     and counts over range are black. A file of this name appears, or is replaced, when\n"
    "                     the picture is whole; a device, a pipe or /dev/stdout is written as it is\n"
    "  --leader COUNT     show missing lines as this count; otherwise they are 32 upright bands of white\n"
    "                     and black\n"
    "  --progress         show on standard error how far it is\n"
    "\n"
    "Exit status: 0 all segments are in, whatever else was offered and refused; 1 some are missing; 2 wrong\n"
    "usage, a bad slate, a picture that is one of the files, or a file that cannot be read or changed\n"
    "meanwhile; 3 standard output or the picture cannot be written.\n";

static const char why_help[] =
    "panulimbe why --slate SLATE FILE..\n"
    "\n"
    "Prints one line about each file, in the order given: that it is a segment of the slate's frame, or the\n"
    "first part in which it is not, with what the slate and the file say of it, or why it is refused:\n"
    "  NAME: agrees\n"
    "  NAME: timeline: slate 0200, file 0210\n"
    "  NAME: day: slate 57210 (20150707), file 57211 (20150708)\n"
    "  NAME: refused 33 timeline, block 1, byte 44\n"
    "The parts, in this order: satellite, day, timeline, band, area, columns, segment total, lines, first line.\n"
    "Those before the one that is named agree. On the slate's side lines and first line are those of the segment\n"
    "of the file's number. A file that cannot be read, or changed while it was read, has no line; standard error\n"
    "says which and why.\n"
    SLATE_OPTION
    "\n"
    "Exit status: 0 all agree; 1 some file does not, or is refused; 2 wrong usage, a bad slate, or some file\n"
    "cannot be read or changed meanwhile; 3 standard output cannot be written.\n";

static const char reading_help[] =
    "panulimbe reading FILE LINE COLUMN\n"
    "\n"
    "Prints what the count at a line and column of the file reads as, both counted from 1 within the file:\n"
    "'radiance 4.25', 'error pixel', 'outside', 'over range' or 'uncalibrated'; or why the file is refused, as\n"
    "'refused 33 timeline, block 1, byte 44'.\n"
    "\n"
    "Exit status: 0 the count was read; 1 the file is refused; 2 wrong usage, no such line or column, or a\n"
    "file that cannot be read or changed meanwhile; 3 standard output cannot be written.\n";

static const char reel_help[] =
    "panulimbe reel write -o REEL [--force] [--progress] FILE..\n"
    "panulimbe reel list REEL\n"
    "panulimbe reel extract REEL [-d FOLDER] [--force] [--progress] [NUMBER..]\n"
    "\n"
    "A reel is 1 to 255 whole files end to end and a list of them, smaller than 2 to the 32 bytes.\n"
    "  write      writes the reel of the files, in the order given. Each refused file is named with its refusal,\n"
    "             and then nothing is written; nor is it where the files have no reel, which is said of REEL\n"
    "  list       prints one line about each file of a reel, as 'panulimbe list' does\n"
    "  extract    writes the files of a reel, or those of these numbers, counted from 1, and prints their names\n"
    "             as they come to be: that in the file's header, and .3 after it if an earlier file of the\n"
    "             reel has the same name and this one is the third\n"
    "A refused reel is not listed, and nothing is extracted from it:\n"
    "  NAME: refused 18 REEL, block 0                these bytes are no reel\n"
    "  NAME: part 2, from byte 1536: refused 33 timeline, block 1, byte 44\n"
    "                                                its second file, which begins at byte 1536, is refused;\n"
    "                                                byte 44 is counted from there\n"
    "\n"
    "  -o, --output REEL      a file of this name appears when the reel is whole; a device, a pipe or\n"
    "                         /dev/stdout is written as it is\n"
    "  -d, --directory FOLDER the folder for the files, which must be there; otherwise the working folder\n"
    "  --force                replace files that are there already; otherwise they stay, and nothing is written\n"
    "  --progress             show on standard error how far it is, even if that is no terminal\n"
    "\n"
    "Exit status: 0 all is well; 1 a file or the reel was refused; 2 wrong usage, no such number, an output that\n"
    "is one of the inputs, or a file that cannot be read or changed meanwhile; 3 standard output or an output\n"
    "cannot be written, or the output is there already.\n";

static const struct {
    const char *name, *help;
    int words; /* that it has: --help may follow each of them */
    int (*run)(int count, char **words);
} subcommands[] = {
    {"list", list_help, 1, list},
    {"quality", quality_help, 1, quality},
    {"night", night_help, 1, night},
    {"frame", frame_help, 1, frame},
    {"why", why_help, 1, why},
    {"reading", reading_help, 1, reading},
    {"reel", reel_help, 2, reel},
};

static bool asks_help(int count, char **words, int last)
{
    for (int i = 1; i <= last && i < count; i++)
        if (strcmp(words[i], "--help") == 0)
            return true;
    return false;
}

/* A standard file that is closed is held by what can be neither read nor written, so that no other file takes its number. */
static void hold_standard_files(void)
{
    for (int file = 0; file <= 2; file++)
        if (fcntl(file, F_GETFD) < 0 && open("/", O_RDONLY) != file)
            _exit(UNWRITTEN);
}

int main(int count, char **words)
{
    hold_standard_files();
    /* a closed pipe and a file that may grow no further are errors of the write, and are told as such */
    signal(SIGPIPE, SIG_IGN);
    signal(SIGXFSZ, SIG_IGN);
    if (asks_help(count, words, 1)) {
        say("%s", overview);
        return GOOD;
    }
    for (size_t i = 0; count >= 2 && i < sizeof subcommands / sizeof *subcommands; i++) {
        if (strcmp(words[1], subcommands[i].name) != 0)
            continue;
        if (!asks_help(count - 1, words + 1, subcommands[i].words))
            return subcommands[i].run(count - 1, words + 1);
        say("%s", subcommands[i].help);
        return GOOD;
    }
    fprintf(stderr, "%s", overview);
    return UNUSABLE;
}
