/* How many events one teller tells, and how many its hearers have heard. The file `heard` of the folder has the counts, and all of these
   programs map it: so the teller is never far ahead, and no system has to keep or to drop much. */
#include "rate.h"
#include <fcntl.h>
#include <stdatomic.h>
#include <sys/mman.h>
#include <unistd.h>

/* The most hearers; how many events a teller tells between two looks at the counts, which is half of what the slowest hearer may lack; how
   many seconds it waits for its hearers. */
enum { HEARERS = 8, ROW = 128, PATIENCE = 10 };

/* How many hearers there are, and the count of each in a line of the cache of its own. */
struct counts {
    _Atomic int hearers;
    struct {
        _Alignas(64) _Atomic long long events;
    } heard[HEARERS];
};

/* The counts, or NULL after an error. */
static struct counts *all_counts(void)
{
    int file = open("heard", O_RDWR | O_CREAT, 0600);
    if (file < 0 || ftruncate(file, sizeof(struct counts)) != 0)
        return NULL;
    void *place = mmap(NULL, sizeof(struct counts), PROT_READ | PROT_WRITE, MAP_SHARED, file, 0);
    close(file);
    return place == MAP_FAILED ? NULL : place;
}

/* The count of a hearer that can hear from now on, or NULL after an error. */
static _Atomic long long *new_count(void)
{
    struct counts *counts = all_counts();
    int place = counts ? atomic_fetch_add(&counts->hearers, 1) : HEARERS;
    return place < HEARERS ? &counts->heard[place].events : NULL;
}

/* Counts an event, and tells whether it is the next one. */
static int is_next(_Atomic long long *heard, long long number)
{
    return atomic_fetch_add(heard, 1) == number;
}

static int have_heard(struct counts *counts, int hearers, long long events)
{
    for (int hearer = 0; hearer < hearers; hearer++)
        if (atomic_load(&counts->heard[hearer].events) < events)
            return 0;
    return atomic_load(&counts->hearers) >= hearers;
}

/* Waits until so many hearers are there and have heard so many events. Tells whether they have in time. */
static int in_time(struct counts *counts, int hearers, long long events)
{
    struct timespec pause = {0, 20000};
    long long end = nanoseconds() + PATIENCE * 1000000000LL;
    while (!have_heard(counts, hearers, events)) {
        if (nanoseconds() > end)
            return 0;
        nanosleep(&pause, NULL);
    }
    return 1;
}

/* Tells numbers from 0 on for so many milliseconds, each by `tells`, and waits until all have heard them. Appends a line to the file: how
   many events all hearers have heard together, and in how many nanoseconds. Gives 0, or 1 after an error. */
static int put_told(int (*tells)(void *, long long), void *way, long milliseconds, const char *path, int hearers)
{
    struct counts *counts = all_counts();
    if (!counts || hearers > HEARERS || !in_time(counts, hearers, 0))
        return 1;
    long long begun = nanoseconds(), told = 0;
    for (; nanoseconds() - begun < milliseconds * 1000000LL; told++) {
        if (told % ROW == 0 && !in_time(counts, hearers, told - ROW))
            return 1;
        if (!tells(way, told))
            return 1;
    }
    if (!in_time(counts, hearers, told))
        return 1;
    return put_rate(path, told * hearers, nanoseconds() - begun);
}
