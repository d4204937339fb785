/* The same pairs and fan-outs over NATS, whose protocol is lines. One program makes requests with a subject for the answers, the other one
   has the subject of requests. One publishes events, and the others have their subject. The server's port at 127.0.0.1 is in NATS_PORT.
   The number tells the pair. A program that answers prints a line once it can.
   usage: nats ask MILLISECONDS FILE NUMBER | nats answer NUMBER | nats tell MILLISECONDS FILE HEARERS | nats hear */
#define _POSIX_C_SOURCE 200809L
#include "heard.h"
#include "trips.h"
#include <netinet/in.h>
#include <netinet/tcp.h>
#include <stdlib.h>
#include <string.h>
#include <sys/socket.h>

/* One program: what it reads and writes, the subjects of its pair, and the last line and the last payload that it has read. A line has room
   for what the server tells of itself. */
struct party {
    FILE *in, *out;
    char asked[40], answered[40], line[1 << 14], payload[40];
};

static int opens(struct party *party)
{
    const char *port = getenv("NATS_PORT");
    struct sockaddr_in server = {.sin_family = AF_INET, .sin_port = htons(port ? atoi(port) : 0)};
    int one = 1, there = socket(AF_INET, SOCK_STREAM, 0);
    server.sin_addr.s_addr = htonl(INADDR_LOOPBACK);
    if (there < 0 || connect(there, (struct sockaddr *)&server, sizeof server) != 0)
        return 0;
    if (setsockopt(there, IPPROTO_TCP, TCP_NODELAY, &one, sizeof one) != 0)
        return 0;
    party->in = fdopen(there, "r");
    party->out = fdopen(dup(there), "w");
    return party->in && party->out && fputs("CONNECT {\"verbose\":false,\"pedantic\":false}\r\n", party->out) >= 0;
}

/* Reads up to a line that begins with this word. The server may ask whether the program is there. Tells whether such a line came. */
static int comes(struct party *party, const char *word)
{
    while (fgets(party->line, sizeof party->line, party->in)) {
        if (strncmp(party->line, word, strlen(word)) == 0)
            return 1;
        if (strncmp(party->line, "-ERR", 4) == 0)
            return 0;
        if (strncmp(party->line, "PING", 4) == 0) {
            fputs("PONG\r\n", party->out);
            fflush(party->out);
        }
    }
    return 0;
}

/* Subscribes. The server answers `PING` behind it, so the subscription is there then. */
static int has(struct party *party, const char *subject)
{
    fprintf(party->out, "SUB %s 1\r\nPING\r\n", subject);
    return fflush(party->out) == 0 && comes(party, "PONG");
}

/* Reads a message. Its payload is the line behind its first one. */
static int takes(struct party *party, long long *number)
{
    if (!comes(party, "MSG ") || !fgets(party->payload, sizeof party->payload, party->in))
        return 0;
    *number = atoll(party->payload);
    return 1;
}

/* Publishes a number, with a subject for the answer where that isn't empty. */
static int puts_to(struct party *party, const char *subject, const char *answered, long long number)
{
    char digits[40];
    int size = snprintf(digits, sizeof digits, "%lld", number);
    fprintf(party->out, "PUB %s %s %d\r\n%s\r\n", subject, answered, size, digits);
    return fflush(party->out) == 0;
}

static int has_square(void *way, long long number)
{
    struct party *asks = way;
    long long square;
    return puts_to(asks, asks->asked, asks->answered, number) && takes(asks, &square) && square == number * number;
}

static int ask(struct party *party, long milliseconds, const char *path)
{
    return has(party, party->answered) ? put_trips(has_square, party, milliseconds, path) : 1;
}

/* Answers each request at the subject that it names. */
static int answer(struct party *party)
{
    long long number;
    char answered[40];
    if (!has(party, party->asked))
        return 1;
    puts("answers");
    fflush(stdout);
    while (takes(party, &number))
        if (sscanf(party->line, "MSG %*s %*s %39s", answered) != 1 || !puts_to(party, answered, "", number * number))
            return 1;
    return 0;
}

static int tells(void *way, long long number)
{
    return puts_to(way, "told", "", number);
}

static int hear(struct party *party)
{
    long long number;
    _Atomic long long *heard = has(party, "told") ? new_count() : NULL;
    while (heard && takes(party, &number))
        if (!is_next(heard, number))
            return 1;
    return heard ? 0 : 1;
}

int main(int count, char **words)
{
    static struct party party;
    if (count < 2 || !opens(&party))
        return 2;
    snprintf(party.asked, sizeof party.asked, "asked.%s", words[count - 1]);
    snprintf(party.answered, sizeof party.answered, "answered.%s", words[count - 1]);
    if (count == 5 && strcmp(words[1], "ask") == 0)
        return ask(&party, atol(words[2]), words[3]);
    if (count == 3 && strcmp(words[1], "answer") == 0)
        return answer(&party);
    if (count == 5 && strcmp(words[1], "tell") == 0)
        return put_told(tells, &party, atol(words[2]), words[3], atoi(words[4]));
    if (count == 2 && strcmp(words[1], "hear") == 0)
        return hear(&party);
    return 2;
}
