/* What the checks count, and how they tell it. */
#ifndef CHECK_H
#define CHECK_H

#include <stdio.h>

static unsigned long tests, failures;

static void test(int holds, const char *file, int line, const char *what)
{
    tests++;
    if (holds)
        return;
    failures++;
    fprintf(stderr, "%s:%d: does not hold: %s\n", file, line, what);
}

#define CHECK(what) test((what) != 0, __FILE__, __LINE__, #what)

/* The last line of a check, and its status. */
static int told(const char *unit)
{
    printf("%lu %s, %lu failed\n", tests, unit, failures);
    return failures != 0;
}

#endif
