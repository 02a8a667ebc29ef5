/*
 * The smallest complete host: an amplifier for up to eight controllers on one
 * TCP port, over POSIX sockets. One thread, no heap, no waiting but in poll.
 *
 *     host PORT [no-reset]
 *
 * PORT 0 is any free port; the first line tells which. With no-reset the switch
 * that disables reset by key is off. It runs until SIGINT or SIGTERM.
 */
#define _POSIX_C_SOURCE 200809L
#define _DEFAULT_SOURCE /* struct ip_mreq is not in POSIX */

#include <arpa/inet.h>
#include <errno.h>
#include <fcntl.h>
#include <netinet/in.h>
#include <netinet/tcp.h>
#include <poll.h>
#include <signal.h>
#include <stdio.h>
#include <stdlib.h>
#include <string.h>
#include <sys/socket.h>
#include <time.h>
#include <unistd.h>

#include "melorwyth.h"

/* Where controllers and datagrams are heard: the one address to change. */
#define ADDRESS "127.0.0.1"
/* The longest time between two ticks, in milliseconds. */
#define TURN 100u

/* All state. The connections that are live in the record have a socket, and no others have. */
struct host {
    melorwyth_record record;
    uint8_t area[MELORWYTH_AREA];
    uint8_t output[MELORWYTH_OUTPUT];
    uint8_t piece[MELORWYTH_BUFFER];    /* what was just read; nothing is left in it for the next turn */
    int sockets[MELORWYTH_CONNECTIONS]; /* by connection; -1: none */
    int listener;
    int datagrams;                      /* -1: none */
    melorwyth_mechanism followed;       /* what the socket for datagrams was opened for */
    bool reset_switch;
};

static volatile sig_atomic_t stopped;

static void stop(int signal_number)
{
    (void)signal_number;
    stopped = 1;
}

static _Noreturn void fail(const char *what)
{
    fprintf(stderr, "host: %s: %s\n", what, strerror(errno));
    exit(EXIT_FAILURE);
}

/* Ends where a call was refused, as none below is: 1 and 2 never come from a fresh record, 3 and 4 not while sockets
   and connections agree, 6 not unless the thread stood still for 24 days. There is nothing to go on with. */
static void need(const char *call, uint8_t number)
{
    if (number == MELORWYTH_DONE)
        return;
    fprintf(stderr, "host: %s: refusal %u\n", call, (unsigned)number);
    exit(EXIT_FAILURE);
}

/* The one clock: it runs freely, never back, and goes round at 2^32. */
static uint32_t milliseconds(void)
{
    struct timespec now;
    if (clock_gettime(CLOCK_MONOTONIC, &now) != 0)
        fail("clock");
    return (uint32_t)((uint64_t)now.tv_sec * 1000u + (uint64_t)now.tv_nsec / 1000000u);
}

static struct sockaddr_in place(const char *address, uint16_t port)
{
    return (struct sockaddr_in){.sin_family = AF_INET, .sin_port = htons(port), .sin_addr.s_addr = inet_addr(address)};
}

static void shut(int *fd)
{
    if (*fd >= 0)
        close(*fd);
    *fd = -1;
}

/* ---- closing and sending --------------------------------------------------- */

/* Closes the socket of a connection that is gone from the record. */
static void hang_up(struct host *host, uint8_t n, const char *why)
{
    shut(&host->sockets[n]);
    printf("closed connection %u: %s\n", (unsigned)n, why);
}

/* Closes a connection whose socket is of no more use. */
static void give_up(struct host *host, uint8_t n, const char *why)
{
    melorwyth_closed c = melorwyth_close(host->record, host->area, sizeof host->area, n);
    need("close", c.number);
    host->record = c.record;
    hang_up(host, n, why);
}

/* Sends the front of the output. What does not fit the socket's buffer closes the connection: a message cut short
   cannot be followed by another, and to wait for a controller that does not read would hold up the other seven.
   So that buffer is the queue: give it room for all that a controller may ask before it reads. */
static void send_output(struct host *host, uint8_t n, size_t length)
{
    ssize_t sent;
    do
        sent = send(host->sockets[n], host->output, length, MSG_NOSIGNAL);
    while (sent < 0 && errno == EINTR);
    if (sent >= 0 && (size_t)sent == length)
        return;
    bool full = sent >= 0 || errno == EAGAIN || errno == EWOULDBLOCK;
    give_up(host, n, full ? "does not read" : "broken off");
}

/* Sends all notifications and keep-alives that wait. */
static void take_all(struct host *host)
{
    for (;;) {
        melorwyth_taken k = melorwyth_take(host->record, host->output, sizeof host->output);
        need("take", k.number);
        host->record = k.record;
        if (k.kind == MELORWYTH_TAKE_NOTHING)
            return;
        send_output(host, k.connection, k.length);
    }
}

/* ---- time -------------------------------------------------------------------- */

static void tick(struct host *host)
{
    melorwyth_ticked t = melorwyth_tick(host->record, host->area, sizeof host->area, milliseconds());
    need("tick", t.number);
    host->record = t.record;
    for (uint8_t n = 0; n < MELORWYTH_CONNECTIONS; n++)
        if (t.closed & 1u << n)
            hang_up(host, n, "silence");
    take_all(host);
}

static uint64_t least(uint64_t a, uint64_t b)
{
    return a < b ? a : b;
}

/* How long poll may wait: until the next closure or keep-alive, but no longer than a turn. */
static int wait_time(const struct host *host)
{
    uint64_t wait = TURN;
    for (int n = 0; n < MELORWYTH_CONNECTIONS; n++) {
        const melorwyth_connection *c = &host->record.device.connections[n];
        if (c->beat > 0)
            wait = least(wait, least(3 * c->beat - c->silence, c->beat - c->quiet));
    }
    return (int)wait;
}

/* ---- reset by key -------------------------------------------------------------- */

/* A socket on the port and in the group that the mechanism names, or -1. */
static int listen_for_datagrams(const melorwyth_mechanism *m)
{
    struct ip_mreq group = {.imr_interface = place(ADDRESS, 0).sin_addr};
    memcpy(&group.imr_multiaddr, m->address, sizeof m->address);
    bool joins = group.imr_multiaddr.s_addr != htonl(INADDR_ANY);
    /* a socket on one address alone hears no group */
    struct sockaddr_in at = place(joins ? "0.0.0.0" : ADDRESS, m->port);
    int fd = socket(AF_INET, SOCK_DGRAM, 0);
    if (fd >= 0 && fcntl(fd, F_SETFL, O_NONBLOCK) == 0 && bind(fd, (struct sockaddr *)&at, sizeof at) == 0 &&
        (!joins || setsockopt(fd, IPPROTO_IP, IP_ADD_MEMBERSHIP, &group, sizeof group) == 0)) {
        printf("listening for datagrams on port %u\n", (unsigned)m->port);
        return fd;
    }
    printf("cannot listen for datagrams on port %u: %s\n", (unsigned)m->port, strerror(errno));
    shut(&fd);
    return fd;
}

/* Listens for datagrams where the record says now. Another key alone moves nothing, but has what could not be opened
   tried again. */
static void follow(struct host *host)
{
    const melorwyth_mechanism *now = &host->record.device.mechanism, *was = &host->followed;
    bool moved = now->armed != was->armed || now->port != was->port ||
                 memcmp(now->address, was->address, sizeof now->address) != 0;
    bool again = host->datagrams < 0 && memcmp(now->key, was->key, sizeof now->key) != 0;
    host->followed = *now;
    if (!moved && !again)
        return;
    shut(&host->datagrams);
    if (now->armed && host->reset_switch)
        host->datagrams = listen_for_datagrams(now);
    else if (now->armed)
        puts("the reset switch is off: not listening for datagrams");
}

/* The piece has room for more than a datagram that resets, so that a longer one is not cut to one. */
static void hear_datagram(struct host *host)
{
    ssize_t length = recv(host->datagrams, host->piece, sizeof host->piece, 0);
    if (length < 0)
        return;
    melorwyth_reset r = melorwyth_datagram(host->record, host->area, sizeof host->area, host->piece, (size_t)length);
    need("datagram", r.number);
    host->record = r.record;
    if (!r.reset)
        return;
    puts("reset by key");
    /* with no melorwyth_close: no connection is left */
    for (uint8_t n = 0; n < MELORWYTH_CONNECTIONS; n++)
        if (host->sockets[n] >= 0)
            hang_up(host, n, "reset");
    follow(host);
}

/* ---- controllers ----------------------------------------------------------------- */

/* Offers the rest of the piece again until all is taken. Once the connection is closed the rest is dropped: it is not
   for the next that gets this number. */
static void deliver(struct host *host, uint8_t n, size_t length)
{
    const uint8_t *rest = host->piece;
    while (length > 0 && host->sockets[n] >= 0) {
        melorwyth_delivered d = melorwyth_deliver(host->record, host->area, sizeof host->area, n, rest, length,
                                                  host->output, sizeof host->output);
        need("deliver", d.number);
        host->record = d.record;
        rest += d.taken;
        length -= d.taken;
        /* before the reply, so that whoever is told that it is armed can send the datagram */
        follow(host);
        if (d.kind == MELORWYTH_DELIVER_CLOSED) {
            char why[24];
            snprintf(why, sizeof why, "fault %u", (unsigned)d.fault);
            hang_up(host, n, why);
        } else if (d.length > 0) {
            send_output(host, n, d.length);
        }
        take_all(host);
    }
}

static void hear(struct host *host, uint8_t n)
{
    ssize_t length = recv(host->sockets[n], host->piece, sizeof host->piece, 0);
    if (length > 0)
        deliver(host, n, (size_t)length);
    else if (length == 0)
        give_up(host, n, "hung up");
    else if (errno != EAGAIN && errno != EWOULDBLOCK && errno != EINTR)
        give_up(host, n, "broken off");
}

static void admit(struct host *host)
{
    struct sockaddr_in from = {0};
    socklen_t length = sizeof from;
    int fd = accept(host->listener, (struct sockaddr *)&from, &length), on = 1;
    /* whoever was there has left, or the system has no room: the next turn looks again */
    if (fd < 0)
        return;
    melorwyth_opened o = melorwyth_open(host->record);
    if (o.number == MELORWYTH_REFUSAL_TABLE_FULL) {
        close(fd);
        puts("refused a ninth connection");
        return;
    }
    need("open", o.number);
    host->record = o.record;
    host->sockets[o.connection] = fd;
    /* who has this number now: a status tells no controller who holds a lock */
    printf("opened connection %u for %s:%u\n", (unsigned)o.connection, inet_ntoa(from.sin_addr),
           (unsigned)ntohs(from.sin_port));
    /* a short reply is not to wait for more to go with it */
    if (fcntl(fd, F_SETFL, O_NONBLOCK) != 0 || setsockopt(fd, IPPROTO_TCP, TCP_NODELAY, &on, sizeof on) != 0)
        give_up(host, o.connection, "broken off");
}

/* ---- the loop ---------------------------------------------------------------------- */

static void hear_all(struct host *host, const struct pollfd *watched)
{
    for (uint8_t n = 0; n < MELORWYTH_CONNECTIONS; n++)
        if (watched[n].revents != 0 && host->sockets[n] >= 0)
            hear(host, n);
}

/* Time comes before what was heard, so that silence begins where it was heard. Arrivals come last, so that what poll
   said of a connection which has been closed since is not taken for the next of its number. */
static void turn(struct host *host)
{
    enum { LISTENER = MELORWYTH_CONNECTIONS, DATAGRAMS, ALL };
    struct pollfd watched[ALL];
    for (int n = 0; n < MELORWYTH_CONNECTIONS; n++)
        watched[n] = (struct pollfd){.fd = host->sockets[n], .events = POLLIN};
    watched[LISTENER] = (struct pollfd){.fd = host->listener, .events = POLLIN};
    watched[DATAGRAMS] = (struct pollfd){.fd = host->datagrams, .events = POLLIN};
    int ready = poll(watched, ALL, wait_time(host));
    if (ready < 0 && errno != EINTR)
        fail("poll");
    tick(host);
    if (ready <= 0)
        return;
    if (watched[DATAGRAMS].revents != 0)
        hear_datagram(host);
    hear_all(host, watched);
    if (watched[LISTENER].revents != 0)
        admit(host);
}

static void start(struct host *host, uint16_t port)
{
    struct sockaddr_in at = place(ADDRESS, port);
    socklen_t length = sizeof at;
    int fd = socket(AF_INET, SOCK_STREAM, 0), on = 1;
    /* a host that is restarted is to have its port again at once */
    if (fd < 0 || setsockopt(fd, SOL_SOCKET, SO_REUSEADDR, &on, sizeof on) != 0 ||
        fcntl(fd, F_SETFL, O_NONBLOCK) != 0 || bind(fd, (struct sockaddr *)&at, length) != 0 ||
        listen(fd, MELORWYTH_CONNECTIONS) != 0 || getsockname(fd, (struct sockaddr *)&at, &length) != 0)
        fail("listening on " ADDRESS);
    host->listener = fd;
    host->datagrams = -1;
    for (int n = 0; n < MELORWYTH_CONNECTIONS; n++)
        host->sockets[n] = -1;
    host->record = melorwyth_fresh(milliseconds());
    need("clear", melorwyth_clear(host->area, sizeof host->area).number);
    printf("listening on " ADDRESS ":%u\n", (unsigned)ntohs(at.sin_port));
}

static void end(struct host *host)
{
    for (uint8_t n = 0; n < MELORWYTH_CONNECTIONS; n++)
        if (host->sockets[n] >= 0)
            give_up(host, n, "the host ends");
    shut(&host->datagrams);
    shut(&host->listener);
    puts("ended");
}

int main(int count, char **words)
{
    static struct host host;
    char *behind = NULL;
    unsigned long port = count > 1 ? strtoul(words[1], &behind, 10) : 0;
    host.reset_switch = count < 3;
    if (behind == NULL || behind == words[1] || *behind != '\0' || port > UINT16_MAX || count > 3 ||
        (count == 3 && strcmp(words[2], "no-reset") != 0)) {
        fputs("usage: host PORT [no-reset]\n", stderr);
        return 2;
    }
    if (melorwyth_version() != MELORWYTH_VERSION) {
        fputs("host: the archive's version is not the header's\n", stderr);
        return EXIT_FAILURE;
    }
    /* lines at once, also into a file; and whoever stops reading them does not end the host */
    setvbuf(stdout, NULL, _IOLBF, 0);
    signal(SIGPIPE, SIG_IGN);
    signal(SIGINT, stop);
    signal(SIGTERM, stop);
    start(&host, (uint16_t)port);
    while (!stopped)
        turn(&host);
    end(&host);
    return EXIT_SUCCESS;
}
