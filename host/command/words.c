/* The words that the command is given: options and numbers. */
#include <stdlib.h>
#include <string.h>

#include "command.h"

/* In getopt's place, which would print the word as it stands. */
static void complain_of(int option, char *const *words)
{
    const char letter[] = {'-', (char)optopt, '\0'};
    bool is_letter = optopt != 0 && optopt < LONG_ONLY;
    const char *fault = option == ':' ? "needs a value" : optopt >= LONG_ONLY ? "takes no value" : "no such option";
    complain(is_letter ? letter : words[optind - 1], fault);
}

int next_option(int count, char **words, const char *letters, const struct option *options)
{
    opterr = 0;
    int option = getopt_long(count, words, letters, options, NULL);
    if (option == ':' || option == '?')
        complain_of(option, words);
    return option;
}

bool has_options(int count, char **words)
{
    static const struct option none[] = {{NULL, 0, NULL, 0}};
    return next_option(count, words, ":", none) != -1;
}

bool parse_number(const char *text, unsigned long least, unsigned long most, unsigned *value)
{
    size_t digits = strspn(text, "0123456789");
    if (digits == 0 || digits > 9 || text[digits] != '\0')
        return false;
    unsigned long number = strtoul(text, NULL, 10);
    *value = (unsigned)number;
    return least <= number && number <= most;
}
