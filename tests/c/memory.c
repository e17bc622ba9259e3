/* Says the memory of a station, new and with all that may wait: link it with -Wl,--wrap=malloc,--wrap=realloc,--wrap=free. */
#include "two.h"
#include <malloc.h>

static end_t *who = &dte; /* whose call it is */
static size_t held[2], most[2];

void *__real_malloc(size_t count);
void *__real_realloc(void *old, size_t count);
void __real_free(void *old);

static void *taken(void *made)
{
    int i = who == &dce;
    held[i] += malloc_usable_size(made);
    most[i] = held[i] > most[i] ? held[i] : most[i];
    return made;
}

void *__wrap_malloc(size_t count)
{
    return taken(__real_malloc(count));
}

void *__wrap_realloc(void *old, size_t count)
{
    held[who == &dce] -= malloc_usable_size(old);
    return taken(__real_realloc(old, count));
}

void __wrap_free(void *old)
{
    held[who == &dce] -= malloc_usable_size(old);
    __real_free(old);
}

/* Delivers the frames of an end, and of each what is answered, until there is none. */
static void deliver_all(void)
{
    bool is_sent = true;
    while (is_sent) {
        is_sent = false;
        for (int i = 0; i < 2; i++) {
            size_t count;
            uint8_t *octets = next_frame(i ? &dce : &dte, &count);
            who = i ? &dte : &dce;
            if (octets != NULL) {
                is_sent = true;
                expect("receive", x25_receive(&who->station, octets, count), 0);
                take_frames(who);
            }
        }
    }
}

/* A call of an end that did what it was asked. */
static void did(uint32_t number)
{
    expect("a call", number, 0);
    take_frames(who);
    deliver_all();
}

/* A DTE has on each channel as many of the longest messages to send as may wait, of which the DCE acknowledges none. As all calls
   end each channel keeps the memory of one message. */
static void fill(uint16_t channels)
{
    static const uint8_t message[65535];
    const x25_settings settings = {.k = 7, .n2 = 10, .channels = channels, .long_data = true, .say_sizes = true, .wide = true};
    const x25_sizes sizes = {12, 12, 7, 7};
    uint16_t channel;
    memset(held, 0, sizeof held);
    memset(most, 0, sizeof most);
    expect("new", (who = &dce, x25_new(&dce.station, X25_DCE, settings)), 0);
    expect("new", (who = &dte, x25_new(&dte.station, X25_DTE, settings)), 0);
    size_t empty = held[0];
    did(x25_connect(&dte.station));
    for (int i = 0; i < channels; i++) {
        did((who = &dte, x25_call(&dte.station, "123456789012345", 15, "123456789012345", 15, message, 128, sizes, &channel)));
        did((who = &dce, x25_accept(&dce.station, channel, sizes)));
    }
    who = &dte;
    for (uint16_t h = 1; h <= channels; h++)
        while (x25_send(&dte.station, h, false, message, sizeof message) == 0)
            dte.first = dte.next;
    expect("more than 470 kB", empty > 470000, false);
    expect("more than 11 MB", most[0] > 11000000, false);
    expect("less than these messages", most[0] < (size_t)8 * channels * sizeof message, false);
    dte.first = dte.next, dce.first = dce.next;
    did(x25_relink(&dte.station));
    expect("more than a message of each call that ended", held[0] > empty + channels * sizeof message + 250000, false);
    printf("%s%u channels: %zu kB new, %zu kB at most, %zu kB after it", channels > 1 ? ", " : "", channels, empty / 1000, most[0] / 1000, held[0] / 1000);
    who = &dte, x25_free(&dte.station);
    who = &dce, x25_free(&dce.station);
    expect("what is left", (uint32_t)(held[0] + held[1]), 0);
    dte.first = dte.next = dce.first = dce.next = 0;
}

/* A DTE with as many channels as there are sends a message on one of them, and all of it comes. */
static void fill_one(void)
{
    static const uint8_t message[65535];
    const x25_settings settings = {.k = 7, .n2 = 10, .channels = 4095, .long_data = true, .say_sizes = true, .wide = true};
    const x25_sizes sizes = {12, 12, 7, 7};
    uint16_t channel;
    memset(held, 0, sizeof held);
    memset(most, 0, sizeof most);
    expect("new", (who = &dce, x25_new(&dce.station, X25_DCE, settings)), 0);
    expect("new", (who = &dte, x25_new(&dte.station, X25_DTE, settings)), 0);
    size_t empty = held[0];
    did(x25_connect(&dte.station));
    did((who = &dte, x25_call(&dte.station, "1", 1, "2", 1, NULL, 0, sizes, &channel)));
    did((who = &dce, x25_accept(&dce.station, channel, sizes)));
    did((who = &dte, x25_send(&dte.station, channel, false, message, sizeof message)));
    expect("more than 3 MB", most[0] > 3000000 || most[1] > 3000000, false);
    printf(", 4095 channels: %zu kB new, %zu and %zu kB at most with one in use", empty / 1000, most[0] / 1000, most[1] / 1000);
    who = &dte, x25_free(&dte.station);
    who = &dce, x25_free(&dce.station);
    expect("what is left", (uint32_t)(held[0] + held[1]), 0);
}

int main(void)
{
    fill(1);
    fill(16);
    fill_one();
    puts("");
    return 0;
}
