/* How many trips a pair makes. */
#include "rate.h"

/* Makes trips for so many milliseconds. `has_square` asks for the square of a number, and tells whether that came. Appends a line to the
   file: how many trips it made, and in how many nanoseconds. Gives 0, or 1 after an error. */
static int put_trips(int (*has_square)(void *, long long), void *way, long milliseconds, const char *path)
{
    long long begun = nanoseconds(), now = begun, trips = 0;
    for (; now - begun < milliseconds * 1000000LL; now = nanoseconds(), trips++)
        if (!has_square(way, trips % 1000))
            return 1;
    return put_rate(path, trips, now - begun);
}
