/* The same pairs and fan-outs over D-Bus. One program calls a method for squares and counts the trips, the other one has the method. One
   sends a signal for each event, and the others have asked the daemon for that signal. Its address is in DBUS_SESSION_BUS_ADDRESS. The
   number tells the pair. A program that answers prints a line once it can.
   usage: dbus ask MILLISECONDS FILE NUMBER | dbus answer NUMBER | dbus tell MILLISECONDS FILE HEARERS | dbus hear */
#define _POSIX_C_SOURCE 200809L
#include "heard.h"
#include "trips.h"
#include <stdlib.h>
#include <string.h>
#include <systemd/sd-bus.h>

static const char PATH[] = "/square", INTERFACE[] = "bench.Square";

/* One program: of a pair, with the name under which the other one is called or answers; of hearers, with its count. */
struct party {
    sd_bus *bus;
    char name[100];
    _Atomic long long *heard;
};

static int has_square(void *way, long long number)
{
    struct party *asks = way;
    sd_bus_message *reply = NULL;
    int64_t square = -1;
    int result = sd_bus_call_method(asks->bus, asks->name, PATH, INTERFACE, "Square", NULL, &reply, "x", (int64_t)number);
    if (result >= 0)
        result = sd_bus_message_read(reply, "x", &square);
    sd_bus_message_unref(reply);
    return result >= 0 && square == number * number;
}

static int square(sd_bus_message *call, void *unused, sd_bus_error *error)
{
    int64_t number;
    (void)unused;
    (void)error;
    int result = sd_bus_message_read(call, "x", &number);
    return result < 0 ? result : sd_bus_reply_method_return(call, "x", number * number);
}

static const sd_bus_vtable METHODS[] = {
    SD_BUS_VTABLE_START(0),
    SD_BUS_METHOD("Square", "x", "x", square, SD_BUS_VTABLE_UNPRIVILEGED),
    SD_BUS_VTABLE_END,
};

/* Takes what comes, until an error. */
static int take_all(struct party *party)
{
    int result = 0;
    while (result >= 0) {
        result = sd_bus_process(party->bus, NULL);
        if (result == 0)
            result = sd_bus_wait(party->bus, UINT64_MAX);
    }
    return 1;
}

static int answer(struct party *answers)
{
    if (sd_bus_add_object_vtable(answers->bus, NULL, PATH, INTERFACE, METHODS, NULL) < 0)
        return 1;
    if (sd_bus_request_name(answers->bus, answers->name, 0) < 0)
        return 1;
    puts("answers");
    fflush(stdout);
    return take_all(answers);
}

static int tells(void *way, long long number)
{
    struct party *tells = way;
    return sd_bus_emit_signal(tells->bus, PATH, INTERFACE, "Told", "x", (int64_t)number) >= 0 && sd_bus_flush(tells->bus) >= 0;
}

static int hears(sd_bus_message *signal, void *way, sd_bus_error *error)
{
    struct party *hears = way;
    int64_t number;
    (void)error;
    if (sd_bus_message_read(signal, "x", &number) < 0 || !is_next(hears->heard, number))
        exit(1);
    return 0;
}

static int hear(struct party *party)
{
    if (sd_bus_match_signal(party->bus, NULL, NULL, PATH, INTERFACE, "Told", hears, party) < 0)
        return 1;
    party->heard = new_count();
    return party->heard ? take_all(party) : 1;
}

int main(int count, char **words)
{
    struct party party = {NULL, "", NULL};
    if (count < 2 || sd_bus_open_user(&party.bus) < 0)
        return 2;
    snprintf(party.name, sizeof party.name, "bench.Pair%s", words[count - 1]);
    if (count == 5 && strcmp(words[1], "ask") == 0)
        return put_trips(has_square, &party, atol(words[2]), words[3]);
    if (count == 3 && strcmp(words[1], "answer") == 0)
        return answer(&party);
    if (count == 5 && strcmp(words[1], "tell") == 0)
        return put_told(tells, &party, atol(words[2]), words[3], atoi(words[4]));
    if (count == 2 && strcmp(words[1], "hear") == 0)
        return hear(&party);
    return 2;
}
