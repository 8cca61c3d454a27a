/* What the parts of `panulimbe reel` share. */
#ifndef REEL_H
#define REEL_H

#include "command.h"

/* Its second words: words[0] is that word. */
int write_reel(int count, char **words);
int list_reel(int count, char **words);
int extract_reel(int count, char **words);

/* What the options ask for. Progress is shown on a terminal in any case. */
typedef struct ReelWish {
    const char *where; /* the reel to write, or the folder to extract to; NULL for none */
    bool force, progress;
} ReelWish;

/* The letter and the long name are those of the option that says where. */
bool parse_reel_wish(int count, char **words, char letter, const char *name, ReelWish *wish);

/* Reads a reel and judges it: how many files it has, when the status is GOOD; else what is wrong has been told, and the reel is
   closed. */
int judge_reel(const char *name, File *reel, uint16_t *files);

/* An output's bytes are those of a File. */
bool write_bytes(FILE *to, const void *file, bool progress);

#endif
