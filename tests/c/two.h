/* Two stations and the line between them, for the tests: what each sends, and what was told of each. */
#ifndef TWO_H
#define TWO_H

#include "x25.h"
#include <stdio.h>
#include <stdlib.h>
#include <string.h>

enum { ROOM = 4103, MOST = 64, TEXT = 1 << 18 };

/* An end: its station, the frames that it sent and that haven't come yet, whether T1 has a deadline, and its transcript. */
typedef struct {
    x25_station station;
    uint8_t octets[MOST][ROOM];
    size_t counts[MOST];
    size_t first, next;
    bool has_deadline;
    char told[TEXT];
    size_t length;
} end_t;

static end_t dte, dce;

static const x25_settings one_channel = {.k = 7, .n2 = 10, .channels = 1};

static void fail(const char *what, uint32_t number)
{
    fprintf(stderr, "%s: %u\n", what, (unsigned)number);
    exit(1);
}

static void expect(const char *what, uint32_t number, uint32_t expected)
{
    if (number != expected)
        fail(what, number);
}

/* Takes the frames of the last answer to the line, and the timer. */
static void take_frames(end_t *end)
{
    for (size_t i = 0; i < x25_frames(&end->station); i++) {
        size_t place = end->next++ % MOST;
        end->counts[place] = x25_frame(&end->station, i, end->octets[place], ROOM);
        if (end->counts[place] > ROOM || end->next - end->first > MOST)
            fail("a frame is too long, or too many wait", (uint32_t)end->counts[place]);
    }
    uint32_t timer = x25_timer(&end->station);
    if (timer != X25_TIMER_GOES_ON)
        end->has_deadline = timer == X25_TIMER_BEGINS;
}

/* The next frame of an end, or none. */
static uint8_t *next_frame(end_t *from, size_t *count)
{
    if (from->first == from->next)
        return NULL;
    size_t place = from->first++ % MOST;
    *count = from->counts[place];
    return from->octets[place];
}

#endif
