/* What the parts of the command `panulimbe` share. Every judgement is the proved library's; the command reads, asks and
   prints. */
#ifndef COMMAND_H
#define COMMAND_H

#include <getopt.h>
#include <stdbool.h>
#include <stdio.h>
#include <sys/stat.h>

#include "hsd.h"

/* Exit statuses, the worse the higher. */
enum { GOOD = 0, REFUSED = 1, UNUSABLE = 2, UNWRITTEN = 3 };

/* The subcommands: words[0] is the subcommand's own name. */
int list(int count, char **words);
int quality(int count, char **words);
int night(int count, char **words);
int frame(int count, char **words);
int why(int count, char **words);
int reading(int count, char **words);
int reel(int count, char **words);

/* A file's bytes, in memory of the command's own; of an open file, bytes is never NULL. */
typedef struct File {
    uint8_t *bytes;
    size_t length, room;
    bool is_lent; /* by the system: zeros that can only be read */
} File;

/* One byte more than any reel has. */
#define BEYOND_REELS ((size_t)1 << 32)

/* Reads all of a file or a reel, and complains of one that cannot be read, or that changes meanwhile. One that
   is too long to be accepted is not read to its end. */
bool open_file(const char *name, File *file);
bool open_reel(const char *name, File *reel);
void close_file(File *file);

/* The same, with the file's bytes after those that are there, BEYOND_REELS in all at most. A file that is complained of may
   leave some of its bytes there. */
bool add_file(const char *name, File *file);

/* Room for so many bytes, or errno says why not. */
bool make_room(File *file, size_t room);

/* What is done with a file, and its status. The file is NULL where it cannot be read, which has been complained of. */
typedef int Look(const char *name, const File *file, void *with);

/* Reads the files in the order given, one at a time, and has each looked at; the worst status. */
int each_file(int count, char **names, bool progress, Look *look, void *with);

/* What is said about a file that was judged, of NULL where it cannot be read. */
typedef void SayLine(const char *name, const HsdFile *found);

/* Judges each file that the words name and has a line said about it; the worst status. */
int each_judged(int count, char **words, SayLine *say_line);

/* The listing's line about a file, which is empty for NULL. */
void say_listed(const char *name, const HsdFile *found);

/* Whether nothing that is read is written to as well, by the output (NULL for none) or by what the command says; else complains. */
bool spares_inputs(const char *output, int count, char **names);

/* Of two files whose type and inode were asked for. */
bool same_file(const struct statx *one, const struct statx *other);

/* The most columns that a good slate has. */
enum { WIDEST = 22000 };

/* A frame as it fills. */
typedef struct Frame {
    HsdSlate slate;
    uint8_t marks[HSD_MARKS];
    uint16_t *counts;
    size_t length;
} Frame;

/* How a frame is shown. */
typedef struct Picture {
    const Frame *frame;
    const uint16_t *leader;
} Picture;

bool write_picture(const char *name, Picture picture, bool progress);

/* Reads a slate, and complains of one that is not good. */
bool read_slate(const char *text, HsdSlate *slate);

/* How many lines the frame of a good slate has. */
unsigned frame_lines(const HsdSlate *slate);

/* The date of a day of 2000 to 2099 as a slate has it: 20150707. */
unsigned date_of(uint32_t day);

/* An area's letters, and the end. */
enum { LETTERS = 5 };
void put_letters(uint32_t area, char letters[LETTERS]);

/* An output: what it is filled with, and by whom. The function that fills it is told whether to show progress, which it is
   not where that would stand within the output. */
typedef struct Output {
    const char *name;
    bool (*fill)(FILE *to, const void *what, bool progress);
    const void *what;
    bool progress;
    bool keeps;  /* a file that is there already stays */
    bool itself; /* the name is a file's own: no link is followed, and no device or pipe written to */
} Output;

/* Writes an output as a whole, or complains. */
bool write_output(const Output *output);

/* Whether nothing is there that the output keeps; else complains. So it can be told early: writing sees to it again. */
bool is_free(const Output *output);

/* Whether a name is the command's own standard error. */
bool is_error_stream(const char *name);

/* Standard output, at once; one that cannot be written to ends the command. */
void say(const char *format, ...) __attribute__((format(printf, 1, 2)));
void say_refused(const char *name, HsdAnswer answer);
const char *refusal_name(uint8_t refusal);

/* A refusal's number, the name of the field or rule, its block and, in a block, the byte: good until the next call. */
const char *refusal_words(HsdAnswer answer);

/* What a file is refused for. */
HsdAnswer refusal_of(const HsdFile *found);

/* Standard error. */
void complain(const char *about, const char *what);
int misused(const char *subcommand, const char *needs);
void show_progress(const char *what, unsigned done, unsigned all);

/* A word of the user's as it may be printed: good until the next call. */
const char *shown(const char *word);

/* The next option's letter or number, or -1; complains of a wrong one. Long options are numbered from LONG_ONLY, above every letter. */
enum { LONG_ONLY = 256 };
int next_option(int count, char **words, const char *letters, const struct option *options);
bool has_options(int count, char **words);

/* A plain decimal number from least to most, and nothing after it. */
bool parse_number(const char *text, unsigned long least, unsigned long most, unsigned *value);

#endif
