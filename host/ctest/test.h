/* A check that says where it failed, and how many did. */
#ifndef TEST_H
#define TEST_H

#include <stdbool.h>
#include <stdio.h>

static unsigned checks, failures;

#define CHECK(what) check((what), #what, __FILE__, __LINE__)

static inline void check(bool holds, const char *what, const char *file, int line)
{
    checks++;
    if (holds)
        return;
    failures++;
    fprintf(stderr, "%s:%d: not so: %s\n", file, line, what);
}

/* The exit status of a test. */
static inline int checked(const char *test)
{
    printf("%s: %u checks, %u failed\n", test, checks, failures);
    return failures != 0;
}

#endif
