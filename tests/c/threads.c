/* Two stations that go from thread to thread by a lock: each thread sends messages of its own, one at a time, and takes what comes. */
#include "two.h"
#include <pthread.h>

enum { THREADS = 4, MESSAGES = 500 };

static pthread_mutex_t lock = PTHREAD_MUTEX_INITIALIZER;
static long come;

static void take(end_t *end)
{
    static uint8_t room[ROOM];
    x25_event event;
    for (size_t i = 0; x25_take(&end->station, i, &event, room, sizeof room); i++)
        if (event.kind == X25_EVENT_MESSAGE) {
            for (size_t j = 1; j < event.count; j++)
                if (room[j] != room[0])
                    fail("octets of two messages", room[j]);
            come++;
        }
    take_frames(end);
}

static bool deliver(end_t *from, end_t *to)
{
    size_t count;
    uint8_t *octets = next_frame(from, &count);
    if (octets == NULL)
        return false;
    expect("receive", x25_receive(&to->station, octets, count), 0);
    take(to);
    return true;
}

static void deliver_all(void)
{
    while (deliver(&dte, &dce) || deliver(&dce, &dte))
        ;
}

static void *talk(void *given)
{
    uint8_t user[300];
    memset(user, *(uint8_t *)given, sizeof user);
    for (int i = 0; i < MESSAGES; i++) {
        end_t *end = i % 2 ? &dte : &dce;
        pthread_mutex_lock(&lock);
        expect("send", x25_send(&end->station, 1, false, user, sizeof user), 0);
        take(end);
        deliver_all();
        pthread_mutex_unlock(&lock);
    }
    return NULL;
}

int main(void)
{
    static uint8_t names[THREADS];
    pthread_t threads[THREADS];
    uint16_t channel;
    expect("new", x25_new(&dte.station, X25_DTE, one_channel), 0);
    expect("new", x25_new(&dce.station, X25_DCE, one_channel), 0);
    expect("connect", x25_connect(&dte.station), 0);
    take(&dte);
    deliver_all();
    expect("call", x25_call(&dte.station, "1", 1, "2", 1, NULL, 0, (x25_sizes){0, 0, 0, 0}, &channel), 0);
    take(&dte);
    deliver_all();
    expect("accept", x25_accept(&dce.station, channel, (x25_sizes){0, 0, 0, 0}), 0);
    take(&dce);
    deliver_all();
    for (int i = 0; i < THREADS; i++) {
        names[i] = (uint8_t)i;
        pthread_create(&threads[i], NULL, talk, &names[i]);
    }
    for (int i = 0; i < THREADS; i++)
        pthread_join(threads[i], NULL);
    expect("messages", (uint32_t)come, THREADS * MESSAGES);
    x25_free(&dte.station);
    x25_free(&dce.station);
    printf("%ld messages of %d threads\n", come, THREADS);
    return 0;
}
