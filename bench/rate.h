/* How fast something was: the clock, and the line that says so. */
#ifndef RATE_H
#define RATE_H

#include <stdio.h>
#include <time.h>

static long long nanoseconds(void)
{
    struct timespec now;
    clock_gettime(CLOCK_MONOTONIC, &now);
    return now.tv_sec * 1000000000LL + now.tv_nsec;
}

/* Appends a line to the file: how many there were, and in how many nanoseconds. Gives 0, or 1 after an error. */
static int put_rate(const char *path, long long count, long long took)
{
    FILE *file = fopen(path, "a");
    if (!file)
        return 1;
    fprintf(file, "%lld %lld\n", count, took);
    return fclose(file) == 0 ? 0 : 1;
}

#endif
