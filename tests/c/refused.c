/* Plays a call between two stations with each allocation refused in turn, and makes each call again that answers
   X25_NO_MEMORY: the transcripts have to be the same each time. Link it with -Wl,--wrap=malloc,--wrap=realloc. */
#include "two.h"

static long asked, refused_at, met;

void *__real_malloc(size_t count);
void *__real_realloc(void *old, size_t count);

void *__wrap_malloc(size_t count)
{
    return ++asked == refused_at ? NULL : __real_malloc(count);
}

void *__wrap_realloc(void *old, size_t count)
{
    return ++asked == refused_at ? NULL : __real_realloc(old, count);
}

/* The call, made again where memory was refused. */
#define AGAIN(call) (number = (call), number == X25_NO_MEMORY ? (met++, (call)) : number)

static void take(end_t *end)
{
    uint32_t number;
    take_frames(end);
    for (size_t i = 0; i < x25_entries(&end->station); i++) {
        size_t count = 0;
        char *room = end->told + end->length;
        expect("entry", AGAIN(x25_entry(&end->station, i, room, TEXT - end->length, &count)), 0);
        end->length += count;
    }
}

static void ask(end_t *end, const char *text)
{
    uint32_t number;
    expect(text, AGAIN(x25_command(&end->station, text, strlen(text))), 0);
    take(end);
}

/* All frames that are on their way come at once; where memory is refused, those that weren't taken come again. */
static bool deliver(end_t *from, end_t *to)
{
    static uint8_t octets[MOST * ROOM];
    size_t counts[MOST], frames = 0, all = 0, first = 0, at = 0, taken;
    for (uint8_t *frame; (frame = next_frame(from, &counts[frames])) != NULL; all += counts[frames++])
        memcpy(octets + all, frame, counts[frames]);
    if (frames == 0)
        return false;
    while (first < frames) {
        uint32_t number = x25_receive_all(&to->station, octets + at, all - at, counts + first, frames - first, &taken);
        if (number == X25_NO_MEMORY)
            met++;
        else
            expect("receive", number, 0);
        take(to);
        for (; taken > 0; taken--)
            at += counts[first++];
    }
    return true;
}

static void deliver_all(void)
{
    bool is_sent, is_answered;
    do {
        is_sent = deliver(&dte, &dce);
        is_answered = deliver(&dce, &dte);
    } while (is_sent || is_answered);
}

static void play(void)
{
    static const x25_settings settings = {.k = 7, .n2 = 10, .channels = 1, .long_data = true, .wide = true};
    static const uint8_t reverse[] = {0x01, 0x01};
    static uint8_t message[3000];
    const x25_given given = {.facilities = reverse, .facilities_count = 2, .d = true}, said = {.user = message, .user_count = 2};
    const x25_sizes sizes = {0, 0, 0, 0};
    uint16_t channel;
    x25_times times;
    uint32_t number;
    asked = 0;
    dte.first = dte.next = dce.first = dce.next = dte.length = dce.length = 0;
    for (size_t i = 0; i < sizeof message; i++)
        message[i] = (uint8_t)i;
    expect("new", AGAIN(x25_new(&dte.station, X25_DTE, settings)), 0);
    expect("new", AGAIN(x25_new(&dce.station, X25_DCE, settings)), 0);
    expect("times of a DTE", x25_standard_times(X25_DTE, &times), 0);
    expect("times", AGAIN(x25_set_times(&dte.station, times)), 0);
    expect("connect", x25_connect(&dte.station), 0);
    take(&dte);
    deliver_all();
    ask(&dte, "call 123 4567 41");
    dte.first++;
    expect("t1", x25_t1(&dte.station), 0);
    take(&dte);
    deliver_all();
    ask(&dce, "accept 1");
    deliver_all();
    expect("send", AGAIN(x25_send(&dte.station, 1, true, message, sizeof message)), 0);
    take(&dte);
    ask(&dce, "send 1 0 d 68656c6c6f20796f757273656c66");
    ask(&dce, "int 1 2a");
    deliver_all();
    expect("idle", x25_idle(&dte.station) && x25_idle(&dce.station), true);
    ask(&dte, "reset 1");
    deliver_all();
    ask(&dte, "clear 1");
    deliver_all();
    expect("call", AGAIN(x25_call_with(&dte.station, "1", 1, "2", 1, message, 4, sizes, given, &channel)), 0);
    take(&dte);
    deliver_all();
    expect("accept", AGAIN(x25_accept_with(&dce.station, channel, sizes, said)), 0);
    take(&dce);
    deliver_all();
    expect("clear", AGAIN(x25_clear_with(&dte.station, channel, 0, 0, said)), 0);
    take(&dte);
    deliver_all();
    ask(&dte, "disconnect");
    deliver_all();
    x25_free(&dte.station);
    x25_free(&dce.station);
}

int main(void)
{
    static char first[2][TEXT];
    size_t lengths[2];
    play();
    lengths[0] = dte.length;
    lengths[1] = dce.length;
    memcpy(first[0], dte.told, dte.length);
    memcpy(first[1], dce.told, dce.length);
    for (refused_at = 1;; refused_at++) {
        play();
        if (dte.length != lengths[0] || memcmp(dte.told, first[0], dte.length) || dce.length != lengths[1]
            || memcmp(dce.told, first[1], dce.length))
            fail("another transcript", (uint32_t)refused_at);
        if (asked < refused_at)
            break;
    }
    printf("%ld allocations refused in turn, %ld calls made again\n", refused_at - 1, met);
    return 0;
}
