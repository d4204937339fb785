/* The same pairs and fan-outs over MQTT, each message at most once (quality 0). One program publishes requests and takes the topic of
   answers, the other one the reverse. One publishes events, and the others take their topic. The broker's socket is in MQTT_SOCKET. The
   number tells the pair. A program that answers prints a line once it can.
   usage: mqtt ask MILLISECONDS FILE NUMBER | mqtt answer NUMBER | mqtt tell MILLISECONDS FILE HEARERS | mqtt hear */
#define _POSIX_C_SOURCE 200809L
#include "heard.h"
#include "trips.h"
#include <errno.h>
#include <mosquitto.h>
#include <stdlib.h>
#include <string.h>

/* How often the broker is tried while it has too many new connections, each time after a pause. */
enum { TRIES = 500 };

/* One program: what has come to it, the topics of its pair, and of a hearer its count. */
struct party {
    struct mosquitto *client;
    int is_connected, is_subscribed, has_message;
    long long number;
    char asked[40], answered[40];
    _Atomic long long *heard;
};

static void connects(struct mosquitto *unused, void *way, int status)
{
    (void)unused;
    ((struct party *)way)->is_connected = status == 0;
}

static void subscribes(struct mosquitto *unused, void *way, int id, int count, const int *granted)
{
    (void)unused;
    (void)id;
    (void)count;
    (void)granted;
    ((struct party *)way)->is_subscribed = 1;
}

/* Keeps a number that comes. A hearer counts it. */
static void takes(struct mosquitto *unused, void *way, const struct mosquitto_message *message)
{
    struct party *party = way;
    (void)unused;
    if (message->payloadlen != sizeof party->number)
        exit(1);
    memcpy(&party->number, message->payload, sizeof party->number);
    party->has_message = 1;
    if (party->heard && !is_next(party->heard, party->number))
        exit(1);
}

/* Exchanges packets until something has come. Tells whether it came. */
static int comes(struct party *party, const int *has_come)
{
    while (!*has_come)
        if (mosquitto_loop(party->client, 1000, 1) != MOSQ_ERR_SUCCESS)
            return 0;
    return 1;
}

static int opens(struct party *party)
{
    struct timespec pause = {0, 10000000};
    const char *socket = getenv("MQTT_SOCKET");
    if (!socket || mosquitto_lib_init() != MOSQ_ERR_SUCCESS)
        return 0;
    party->client = mosquitto_new(NULL, true, party);
    if (!party->client)
        return 0;
    mosquitto_connect_callback_set(party->client, connects);
    mosquitto_subscribe_callback_set(party->client, subscribes);
    mosquitto_message_callback_set(party->client, takes);
    for (int tries = 0; mosquitto_connect(party->client, socket, 0, 60) != MOSQ_ERR_SUCCESS; tries++) {
        if (errno != EAGAIN || tries == TRIES)
            return 0;
        nanosleep(&pause, NULL);
    }
    return comes(party, &party->is_connected);
}

static int has(struct party *party, const char *topic)
{
    return mosquitto_subscribe(party->client, NULL, topic, 0) == MOSQ_ERR_SUCCESS && comes(party, &party->is_subscribed);
}

/* Publishes a number: its packet is written when this returns. */
static int puts_to(struct party *party, const char *topic, long long number)
{
    if (mosquitto_publish(party->client, NULL, topic, sizeof number, &number, 0, false) != MOSQ_ERR_SUCCESS)
        return 0;
    while (mosquitto_want_write(party->client))
        if (mosquitto_loop(party->client, 1000, 1) != MOSQ_ERR_SUCCESS)
            return 0;
    return 1;
}

static int has_square(void *way, long long number)
{
    struct party *asks = way;
    asks->has_message = 0;
    return puts_to(asks, asks->asked, number) && comes(asks, &asks->has_message) && asks->number == number * number;
}

static int ask(struct party *party, long milliseconds, const char *path)
{
    return has(party, party->answered) ? put_trips(has_square, party, milliseconds, path) : 1;
}

static int answer(struct party *party)
{
    if (!has(party, party->asked))
        return 1;
    puts("answers");
    fflush(stdout);
    while (comes(party, &party->has_message)) {
        party->has_message = 0;
        if (!puts_to(party, party->answered, party->number * party->number))
            return 1;
    }
    return 0;
}

static int tells(void *way, long long number)
{
    return puts_to(way, "told", number);
}

static int hear(struct party *party)
{
    if (!has(party, "told"))
        return 1;
    party->heard = new_count();
    return party->heard ? mosquitto_loop_forever(party->client, 1000, 1) : 1;
}

int main(int count, char **words)
{
    static struct party party;
    if (count < 2 || !opens(&party))
        return 2;
    snprintf(party.asked, sizeof party.asked, "asked/%s", words[count - 1]);
    snprintf(party.answered, sizeof party.answered, "answered/%s", words[count - 1]);
    if (count == 5 && strcmp(words[1], "ask") == 0)
        return ask(&party, atol(words[2]), words[3]);
    if (count == 3 && strcmp(words[1], "answer") == 0)
        return answer(&party);
    if (count == 5 && strcmp(words[1], "tell") == 0)
        return put_told(tells, &party, atol(words[2]), words[3], atoi(words[4]));
    if (count == 2 && strcmp(words[1], "hear") == 0)
        return hear(&party);
    return 2;
}
