/* A daemon that carries local connections as calls of X.25, each frame in a datagram of UDP on this host. docs/EMBEDDING.md explains it.
 *
 *     cc tunnel.c -lx25 -o tunnel
 *     ./tunnel dte 7001 7002 listen 8001 &     each client of TCP port 8001 becomes a call
 *     ./tunnel dce 7002 7001 connect 8002 &    each call that comes becomes a connection to the server of TCP port 8002
 */
#define _GNU_SOURCE
#include <arpa/inet.h>
#include <errno.h>
#include <poll.h>
#include <signal.h>
#include <stdio.h>
#include <stdlib.h>
#include <string.h>
#include <time.h>
#include <unistd.h>
#include <x25.h>

enum { CHANNELS = 16, T1 = 200, T3 = 1000, PIECE = 4096, ROOM = 65536, MOST_WAIT = 1000 };

/* A channel's connection: what is to be sent and to be written. E, qualified, says that no more messages come, K that all up to E came. */
static struct circuit {
    enum { FREE, CALLING, CAME, UP, CUT } state; /* CUT: octets are missing, so the call is to be cleared */
    int file;
    bool has_ended, told_end, end_came, told_came, all_came, is_slow;
    size_t in_count, out_count;
    uint8_t in[PIECE], out[ROOM];
} circuits[CHANNELS + 1];
static x25_station station;
static const x25_sizes kilobytes = {10, 10, 7, 7};
static const x25_times times = {.t1 = T1, .t3 = T3, .t20 = 180000, .t21 = 200000, .t22 = 180000, .t23 = 180000, .t26 = 180000};
static struct sockaddr_in near = {.sin_family = AF_INET}, far, place;
static int line, listener = -1, waiting = -1; /* waiting: a client whose call can't be made yet */
static volatile sig_atomic_t ends; static bool has_ended; /* DISC was answered, or won't be */

static void end(int number) { (void)number, ends = 1; }
static uint64_t now(void)
{
    struct timespec at;
    return clock_gettime(CLOCK_MONOTONIC, &at), (uint64_t)at.tv_sec * 1000 + (uint64_t)at.tv_nsec / 1000000;
}

/* The end of a connection is an error to the one at its other end, as that of this program would be, until it is whole. */
static int opened(int file, bool is_whole)
{
    return setsockopt(file, SOL_SOCKET, SO_LINGER, &(struct linger){!is_whole, 0}, sizeof(struct linger)), file;
}

static void leave(struct circuit *c, int state, bool is_whole)
{
    if (c->file > 0)
        close(opened(c->file, is_whole));
    *c = (struct circuit){.state = state};
}

/* Notes what happened. No call is made here: it would replace the answer that is being read. */
static void note(const x25_event *event, const uint8_t *user)
{
    struct circuit *c = &circuits[event->channel];
    switch (event->kind) {
    case X25_EVENT_LINK_DOWN: case X25_EVENT_RESTARTED: case X25_EVENT_RESTART_ASKED:
        for (int h = 1; h <= CHANNELS; h++)
            leave(&circuits[h], FREE, false);
        break;
    case X25_EVENT_DISCONNECTED: has_ended = true; break;
    case X25_EVENT_INCOMING: leave(c, listener < 0 ? CAME : CUT, false); break;
    case X25_EVENT_CONNECTED: c->state = UP; break;
    case X25_EVENT_RESET: case X25_EVENT_RESET_DONE: case X25_EVENT_FAULT: leave(c, CUT, false); break;
    case X25_EVENT_COLLIDED: case X25_EVENT_CLEARED: c->all_came |= event->cause == 0 && event->diagnostic == 0; /* fall through */
    case X25_EVENT_CLEAR_DONE: leave(c, FREE, c->told_came && c->all_came); break;
    case X25_EVENT_MESSAGE:
        if (c->state == UP && event->q)
            *(event->count > 0 && user[0] == 'E' ? &c->end_came : &c->all_came) = true;
        else if (c->state == UP && event->count > ROOM - c->out_count)
            leave(c, CUT, false); /* the other end doesn't heed x25_not_ready */
        else if (c->state == UP)
            memcpy(c->out + c->out_count, user, event->count), c->out_count += event->count;
    }
}

/* Whether a call did what it was asked. Then its frames are sent, and its events noted. */
static bool did(uint32_t number)
{
    static uint8_t room[ROOM];
    x25_event event;
    for (size_t i = 0; number == 0 && x25_take(&station, i, &event, room, sizeof room); i++)
        if (event.kind == X25_EVENT_FRAME)
            send(line, room, event.count, 0); /* a datagram that isn't taken is a frame that is lost */
        else
            note(&event, room);
    return number == 0;
}

/* How many octets a connection took or gave, none where it will later. Where it has failed the circuit is cut. */
static size_t moved(struct circuit *c, ssize_t count)
{
    if (count < 0 && errno != EAGAIN)
        leave(c, CUT, false);
    return count > 0 ? (size_t)count : 0;
}

/* Goes on with a channel as far as station and connection take it, and answers what is awaited of that. What is refused comes again. */
static struct pollfd go_on(uint16_t channel, struct circuit *c)
{
    if (c->state == CAME && did(x25_accept(&station, channel, kilobytes))) {
        c->state = UP, c->file = opened(socket(AF_INET, SOCK_STREAM | SOCK_NONBLOCK, 0), false);
        if (connect(c->file, (struct sockaddr *)&place, sizeof place) && errno != EINPROGRESS)
            leave(c, CUT, false);
    }
    if (c->out_count > 0) {
        size_t gone = moved(c, send(c->file, c->out, c->out_count, MSG_NOSIGNAL | MSG_DONTWAIT));
        memmove(c->out, c->out + gone, c->out_count -= gone);
    }
    if (c->state == UP && c->in_count == 0 && !c->has_ended) {
        ssize_t count = recv(c->file, c->in, PIECE, MSG_DONTWAIT);
        c->has_ended = count == 0, c->in_count = moved(c, count);
    }
    if (c->state == CUT)
        did(x25_clear(&station, channel, 0, 1));
    if (c->in_count > 0 && did(x25_send(&station, channel, false, c->in, c->in_count)))
        c->in_count = 0;
    if (c->has_ended && c->in_count == 0 && !c->told_end)
        c->told_end = did(x25_send(&station, channel, true, (const uint8_t *)"E", 1));
    if (c->is_slow != (c->out_count > ROOM / 2))
        c->is_slow ^= did(c->is_slow ? x25_ready(&station, channel) : x25_not_ready(&station, channel));
    if (c->end_came && c->out_count == 0 && !c->told_came)
        shutdown(c->file, SHUT_WR), c->told_came = did(x25_send(&station, channel, true, (const uint8_t *)"K", 1));
    if (listener >= 0 && c->told_came && c->all_came)
        did(x25_clear(&station, channel, 0, 0)); /* refused where it is asked already */
    short events = (short)((c->state == UP && c->in_count == 0 && !c->has_ended) * POLLIN | (c->out_count > 0) * POLLOUT);
    return (struct pollfd){events ? c->file : -1, events, 0};
}

int main(int argc, char **argv)
{
    if (argc != 6)
        return fputs("tunnel dte|dce NEAR-PORT FAR-PORT listen|connect PORT\n", stderr), 2;
    bool is_dte = !strcmp(argv[1], "dte"), listens = !strcmp(argv[4], "listen");
    near.sin_addr.s_addr = htonl(INADDR_LOOPBACK), near.sin_port = htons((uint16_t)atoi(argv[2])), far = place = near;
    far.sin_port = htons((uint16_t)atoi(argv[3])), place.sin_port = htons((uint16_t)atoi(argv[5]));
    line = socket(AF_INET, SOCK_DGRAM, 0), listener = listens ? socket(AF_INET, SOCK_STREAM | SOCK_NONBLOCK, 0) : -1;
    if (bind(line, (struct sockaddr *)&near, sizeof near) || connect(line, (struct sockaddr *)&far, sizeof far)
        || (listens && (setsockopt(listener, SOL_SOCKET, SO_REUSEADDR, &(int){1}, sizeof(int))
                        || bind(listener, (struct sockaddr *)&place, sizeof place) || listen(listener, CHANNELS))))
        return perror("tunnel"), 2;
    if (x25_new(&station, is_dte ? X25_DTE : X25_DCE, (x25_settings){.k = 7, .n2 = 20, .channels = CHANNELS, .wide = true, .message = PIECE})
        || x25_set_times(&station, times))
        return fputs("tunnel: no memory\n", stderr), 2;
    sigaction(SIGTERM, &(struct sigaction){.sa_handler = end}, NULL);
    uint8_t octets[PIECE + 64];
    for (uint16_t h; !has_ended;) {
        struct pollfd files[CHANNELS + 2] = {{line, POLLIN, 0}, {waiting < 0 ? listener : -1, POLLIN, 0}};
        if (ends) did(x25_disconnect(&station)); /* refused where it is asked already */
        else if (is_dte)
            did(x25_connect(&station)); /* refused where it is up, or being set up */
        if (waiting >= 0 && did(x25_call(&station, "1", 1, "2", 1, NULL, 0, kilobytes, &h)))
            circuits[h] = (struct circuit){.state = CALLING, .file = waiting}, waiting = -1;
        for (h = 1; h <= CHANNELS; h++)
            files[h + 1] = go_on(h, &circuits[h]);
        poll(files, CHANNELS + 2, (int)x25_next_timeout(&station, now(), MOST_WAIT));
        did(x25_time(&station, now()));
        ssize_t count = recv(line, octets, sizeof octets, MSG_DONTWAIT);
        if (count >= 0)
            did(x25_receive(&station, octets, (size_t)count));
        if (files[1].revents)
            waiting = opened(accept(listener, NULL, NULL), false);
    }
    return x25_free(&station), 0;
}
