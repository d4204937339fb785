/* A tool that tells the time in nanoseconds, each time as an event, and then `end`. usage: tell COUNT MILLISECONDS
   It waits so many milliseconds, below 1,000, before each; where that is 0, it tells as fast as it can. */
#define _POSIX_C_SOURCE 200809L
#include <stdio.h>
#include <stdlib.h>
#include <time.h>

int main(int count, char **words)
{
    if (count != 3)
        return 2;
    long milliseconds = atol(words[2]);
    struct timespec now, pause = {0, milliseconds * 1000000};
    for (long left = atol(words[1]); left > 0; left--) {
        if (milliseconds > 0)
            nanosleep(&pause, NULL);
        clock_gettime(CLOCK_MONOTONIC, &now);
        printf("snd-event(%lld)\n", now.tv_sec * 1000000000LL + now.tv_nsec);
        if (milliseconds > 0)
            fflush(stdout);
    }
    puts("snd-event(end)");
    fflush(stdout);
    while (getchar() != EOF) {
    }
    return 0;
}
