/* Two stations in memory, from C: the user of the one sends messages, and what each puts on the line arrives at the other at once,
 * whose user reads it.
 *
 *     two_stations COUNT LENGTH [READS [CHANNELS]]
 *
 * It writes how many messages were delivered, each of which is read so often; the call goes on one of so many channels.
 */
#include "x25.h"
#include <stdio.h>
#include <stdlib.h>

enum { ROOM = 65536, MOST = 64 };

static x25_station stations[2];
static uint8_t octets[2][MOST][ROOM];    /* frames on their way from each */
static size_t counts[2][MOST], waiting[2];
static long delivered, reads = 1;

static void check(uint32_t number)
{
    if (number) {
        fprintf(stderr, "refused: %u\n", (unsigned)number);
        exit(1);
    }
}

/* What a call answered is read, and its frames go on the line. */
static void take(int end)
{
    x25_event event;
    for (size_t i = 0; x25_take(&stations[end], i, &event, octets[end][waiting[end] % MOST], ROOM); i++) {
        if (event.kind == X25_EVENT_FRAME)
            counts[end][waiting[end]++ % MOST] = event.count;
        if (event.kind == X25_EVENT_MESSAGE) {
            delivered++;
            for (long again = 1; again < reads; again++)
                x25_take(&stations[end], i, &event, octets[end][waiting[end] % MOST], ROOM);
        }
    }
}

/* All frames arrive, and those that are answered, until there is none. */
static void arrive(void)
{
    while (waiting[0] || waiting[1]) {
        for (int end = 0; end < 2; end++) {
            size_t all = waiting[end];
            waiting[end] = 0;
            for (size_t i = 0; i < all; i++) {
                check(x25_receive(&stations[!end], octets[end][i], counts[end][i]));
                take(!end);
            }
        }
    }
}

int main(int argc, char **argv)
{
    static uint8_t message[65535];
    long count = argc > 1 ? atol(argv[1]) : 1;
    size_t length = argc > 2 ? (size_t)atol(argv[2]) : 3;
    reads = argc > 3 ? atol(argv[3]) : 1;
    uint16_t channels = argc > 4 ? (uint16_t)atoi(argv[4]) : 1;
    x25_settings settings = {.k = 7, .n2 = 10, .channels = channels};
    x25_sizes sizes = {0, 0, 0, 0};
    uint16_t channel;
    check(x25_new(&stations[0], X25_DTE, settings));
    check(x25_new(&stations[1], X25_DCE, settings));
    check(x25_connect(&stations[0]));
    take(0);
    arrive();
    check(x25_call(&stations[0], "1", 1, "2", 1, NULL, 0, sizes, &channel));
    take(0);
    arrive();
    check(x25_accept(&stations[1], channel, sizes));
    take(1);
    arrive();
    for (long i = 0; i < count; i++) {
        check(x25_send(&stations[0], channel, false, message, length));
        take(0);
        arrive();
    }
    printf("%ld\n", delivered);
    x25_free(&stations[0]);
    x25_free(&stations[1]);
    return delivered != count;
}
