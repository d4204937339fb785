/* Tools of the toolbus. Of a pair, one asks for squares and counts the trips, and the other one answers. Of a fan-out, one tells numbers as
   events, and the others hear them.
   usage: tool ask MILLISECONDS FILE | tool answer | tool tell MILLISECONDS FILE HEARERS | tool hear */
#define _POSIX_C_SOURCE 200809L
#include "heard.h"
#include "trips.h"
#include <stdlib.h>
#include <string.h>

static int has_square(void *unused, long long number)
{
    char line[100];
    (void)unused;
    printf("snd-event(ask(%lld))\n", number);
    fflush(stdout);
    return fgets(line, sizeof line, stdin) && strncmp(line, "rec-do(", 7) == 0 && atoll(line + 7) == number * number;
}

static int end(void)
{
    puts("snd-event(end)");
    fflush(stdout);
    while (getchar() != EOF) {
    }
    return 0;
}

/* The first trip doesn't count: the other tool may still start. */
static int ask(long milliseconds, const char *path)
{
    return has_square(NULL, 1) && put_trips(has_square, NULL, milliseconds, path) == 0 ? end() : 1;
}

static int answer(void)
{
    char line[100];
    while (fgets(line, sizeof line, stdin)) {
        if (strncmp(line, "rec-eval(", 9) != 0)
            continue;
        long long number = atoll(line + 9);
        printf("snd-value(%lld)\n", number * number);
        fflush(stdout);
    }
    return 0;
}

static int tells(void *unused, long long number)
{
    (void)unused;
    printf("snd-event(%lld)\n", number);
    return fflush(stdout) == 0;
}

static int tell(long milliseconds, const char *path, int hearers)
{
    return put_told(tells, NULL, milliseconds, path, hearers) == 0 ? end() : 1;
}

static int hear(void)
{
    char line[100];
    _Atomic long long *heard = new_count();
    while (heard && fgets(line, sizeof line, stdin))
        if (strncmp(line, "rec-do(", 7) == 0 && !is_next(heard, atoll(line + 7)))
            return 1;
    return heard ? 0 : 1;
}

int main(int count, char **words)
{
    if (count == 4 && strcmp(words[1], "ask") == 0)
        return ask(atol(words[2]), words[3]);
    if (count == 2 && strcmp(words[1], "answer") == 0)
        return answer();
    if (count == 5 && strcmp(words[1], "tell") == 0)
        return tell(atol(words[2]), words[3], atoi(words[4]));
    if (count == 2 && strcmp(words[1], "hear") == 0)
        return hear();
    return 2;
}
