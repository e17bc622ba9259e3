/* Makes calls of all kinds in any order on two stations, with octets that end where memory ends, and takes each answer: nothing may
   go wrong, whatever comes, and its events say what its entries say. The words are a seed and how many calls are made. */
#define _GNU_SOURCE
#include "two.h"
#include <sys/mman.h>

enum { AREA = 1 << 18, AREAS = 9, SEVERAL = 4, KINDS = 35, ALL = 200000 /* in so many calls each kind comes */ };

static uint64_t state;
static uint8_t *ends[AREAS]; /* of memory behind which none may be touched */

static uint32_t draw(uint32_t bound)
{
    state = state * 6364136223846793005u + 1442695040888963407u;
    return (uint32_t)(state >> 33) % bound;
}

static void make_areas(void)
{
    for (int i = 0; i < AREAS; i++) {
        uint8_t *begin = mmap(NULL, AREA + 4096, PROT_READ | PROT_WRITE, MAP_PRIVATE | MAP_ANONYMOUS, -1, 0);
        if (begin == MAP_FAILED || mprotect(begin + AREA, 4096, PROT_NONE))
            fail("memory", (uint32_t)i);
        ends[i] = begin + AREA;
    }
}

/* So many octets at the end of an area; where there are none, at times a null pointer. */
static uint8_t *room(int area, size_t count)
{
    return count == 0 && draw(2) ? NULL : ends[area] - count;
}

static uint8_t *octets(int area, size_t count)
{
    uint8_t *begin = room(area, count);
    for (size_t i = 0; i < count; i++)
        begin[i] = (uint8_t)draw(256);
    return begin;
}

/* Digits at the end of an area, at times with an octet that is none. */
static const char *digits(int area, size_t count)
{
    uint8_t *begin = octets(area, count);
    for (size_t i = 0; i < count && draw(64); i++)
        begin[i] = (uint8_t)('0' + begin[i] % 10);
    return (const char *)begin;
}

static x25_sizes sizes(void)
{
    static const x25_sizes few[] = {{0, 0, 0, 0}, {0, 0, 0, 0}, {7, 7, 2, 2}, {8, 4, 7, 1}, {12, 12, 7, 7}, {3, 7, 2, 2}, {7, 0, 2, 8}};
    return few[draw(sizeof few / sizeof *few)];
}

/* Mostly what may be given: facilities of one octet, all but those of packet sizes and windows, and user data; at times any octets. */
static x25_given given(void)
{
    x25_given made = {.facilities_count = draw(60), .user_count = draw(4) ? draw(129) : 0, .d = draw(2)};
    uint8_t *facilities = octets(7, made.facilities_count);
    if (draw(8))
        made.facilities_count &= ~(size_t)1;
    made.facilities = facilities;
    for (size_t i = 0; i < made.facilities_count && draw(64); i += 2)
        facilities[i] &= 0x3f;
    made.user = octets(8, made.user_count);
    return draw(4) ? made : (x25_given){0};
}

/* Mostly one that a DTE may give. */
static uint8_t cause(void)
{
    return draw(4) ? (uint8_t)(128 * draw(2) + draw(2)) : (uint8_t)draw(256);
}

static uint32_t command(x25_station *station)
{
    static const char *const texts[] = {
        "connect", "call 1 2 41", "accept 1", "clear 1", "send 1 0 4142", "int 1 01", "reset 1 diag=5", "restart cause=200", "pull", "notready 1", "ready 1", "x", ""};
    const char *text = texts[draw(sizeof texts / sizeof *texts)];
    size_t count = strlen(text);
    uint8_t *copy = room(0, count);
    if (count)
        memcpy(copy, text, count);
    return x25_command(station, (const char *)copy, count);
}

/* Writes the frame check sequence of a frame. */
static void seal(uint8_t *frame, size_t count)
{
    uint16_t sum = 0xffff;
    for (size_t i = 0; i < count - 2; i++) {
        sum ^= frame[i];
        for (int bit = 0; bit < 8; bit++)
            sum = (uint16_t)(sum & 1 ? sum >> 1 ^ 0x8408 : sum >> 1);
    }
    frame[count - 2] = (uint8_t)~sum;
    frame[count - 1] = (uint8_t)(~sum >> 8);
}

/* The I frame with another packet: a DIAGNOSTIC, an acceptance with a facility and an octet of user data, or the same with another
   octet. */
static uint32_t hear_another(x25_station *station, const uint8_t *frame, size_t count)
{
    static const uint8_t diagnostic[] = {0x10, 0x00, 0xf1, 0x24}, beside[] = {0x00, 0x02, 0x02, 0xaa, 0xc0};
    bool is_diagnostic = draw(4) == 0, is_acceptance = !is_diagnostic && count == 7 && frame[4] == 0x0f;
    size_t length = is_diagnostic ? sizeof diagnostic + 4 : is_acceptance ? count + sizeof beside : count;
    uint8_t *copy = room(0, length);
    memcpy(copy, frame, is_diagnostic ? 2 : count);
    if (is_diagnostic)
        memcpy(copy + 2, diagnostic, sizeof diagnostic);
    else if (is_acceptance)
        memcpy(copy + 5, beside, sizeof beside);
    else
        copy[2 + draw((uint32_t)count - 4)] = (uint8_t)draw(256);
    seal(copy, length);
    return x25_receive(station, copy, length);
}

static uint32_t hear(x25_station *station, end_t *other)
{
    size_t count;
    uint8_t *frame = next_frame(other, &count), *copy;
    if (frame == NULL)
        return draw(16) ? x25_t1(station) : x25_connect(station);
    if (count > 6 && !(frame[1] & 1) && draw(frame[4] == 0x0f ? 2 : 16) == 0)
        return hear_another(station, frame, count);
    copy = room(0, count);
    memcpy(copy, frame, count);
    if (draw(64) == 0)
        copy[draw((uint32_t)count)] ^= 1;
    return x25_receive(station, copy, count);
}

static size_t came = 1; /* how many frames the last call took */

/* Several frames come at once, of which one is damaged at times, or the last has octets that aren't there. */
static uint32_t hear_all(x25_station *station, end_t *other)
{
    uint8_t octets[SEVERAL * ROOM];
    size_t counts[SEVERAL], count = 0, all = 0, taken = 77;
    while (count < SEVERAL && other->first != other->next) {
        uint8_t *frame = next_frame(other, &counts[count]);
        memcpy(octets + all, frame, counts[count]);
        all += counts[count++];
    }
    if (all && draw(64) == 0)
        octets[draw((uint32_t)all)] ^= 1;
    bool lacks = count && draw(64) == 0;
    uint8_t *copy = room(0, all);
    size_t *given = (size_t *)(void *)room(1, count * sizeof *counts);
    if (all)
        memcpy(copy, octets, all);
    if (count)
        memcpy(given, counts, count * sizeof *counts);
    if (lacks)
        given[count - 1] += 1 + draw(2) * (SIZE_MAX / 2);
    uint32_t number = x25_receive_all(station, copy, all, given, count, &taken);
    if (number != (lacks ? X25_BAD_PARAMETER : 0) || taken != count - lacks)
        fail("frames that were taken", (uint32_t)taken);
    came = taken;
    return 0;
}

/* The time goes on, at times to the moment at which something is due, or back. */
static uint32_t pass(x25_station *station)
{
    static uint64_t now;
    uint64_t at = UINT64_MAX;
    if (x25_next(station, &at) ? at == UINT64_MAX : at != UINT64_MAX)
        fail("when something is due", 0);
    uint64_t most = draw(2) ? UINT64_MAX : draw(100000), left = at == UINT64_MAX ? most : at > now ? at - now : 0;
    if (x25_next_timeout(station, now, most) != (left < most ? left : most))
        fail("how long until then", 0);
    if (draw(64) == 0) {
        uint32_t number = x25_time(station, 0);
        return number == X25_BAD_PARAMETER ? X25_NO_COMMAND : number; /* the last answer stands after both */
    }
    now = at > now && at - now < 100000 && draw(4) ? at : now + draw(1000);
    return x25_time(station, now);
}

static uint32_t call(end_t *end, end_t *other)
{
    x25_station *station = &end->station;
    uint16_t channel = (uint16_t)draw(4), called = 77;
    size_t count = draw(40), long_count = draw(8) ? draw(600) : draw(70000), first = draw(17), second = draw(17);
    uint32_t number;
    came = 1;
    switch (draw(40)) {
    case 0:
        return x25_receive(station, octets(0, count), count);
    case 1:
        return x25_t1(station);
    case 2:
        return command(station);
    case 3: case 4: case 5: {
        size_t many = x25_room(station, channel);
        bool asks = draw(2);
        number = (asks ? x25_send_asking : x25_send)(station, channel, draw(2), octets(0, long_count), long_count);
        if (many > 8 || (!asks && long_count < 65536 && (many == 0) != (number != 0)) || x25_unconfirmed(station, channel) > 15)
            fail("the room of a channel", (uint32_t)many);
        return number;
    }
    case 6: case 7:
        number = draw(2) ? x25_call(station, digits(0, first), first, digits(1, second), second, octets(2, count), count, sizes(), &called)
                         : x25_call_with(station, digits(0, first), first, digits(1, second), second, octets(2, count), count, sizes(), given(), &called);
        if (number ? called != 77 : called < 1 || called > 2)
            fail("the channel of a call", called);
        return number;
    case 8: case 9:
        return draw(2) ? x25_accept(station, channel, sizes()) : x25_accept_with(station, channel, sizes(), given());
    case 10:
        if (draw(8))
            return x25_pull(station);
        return draw(2) ? x25_clear(station, channel, cause(), (uint8_t)draw(256)) : x25_clear_with(station, channel, cause(), (uint8_t)draw(256), given());
    case 11:
        return draw(8) ? x25_pull(station) : x25_reset(station, channel, cause(), (uint8_t)draw(256));
    case 12:
        return x25_interrupt(station, channel, octets(0, count), count);
    case 13:
        return x25_ready(station, channel);
    case 14:
        return draw(4) ? x25_pull(station) : x25_not_ready(station, channel);
    case 15:
        return draw(64) ? x25_pull(station) : x25_restart(station, cause(), (uint8_t)draw(256));
    case 16:
        return draw(64) ? x25_probe(station) : x25_relink(station);
    case 17:
        return draw(1000) ? x25_pull(station) : x25_disconnect(station);
    case 18: case 19: case 20: case 21:
        return hear_all(station, other);
    case 22: {
        static const uint32_t lengths[] = {0, 1, 500, 60000, UINT32_MAX};
        x25_times times = {lengths[draw(5)], lengths[draw(5)], lengths[draw(5)], lengths[draw(5)], lengths[draw(5)], lengths[draw(5)], 0, 0};
        return draw(64) ? pass(station) : x25_set_times(station, times);
    }
    default:
        return hear(station, other);
    }
}

/* ---- the line of an event */

static char line[1 << 18];
static size_t length;

static void put(const char *form, unsigned long long number)
{
    length += (size_t)snprintf(line + length, sizeof line - length, form, number);
}

static void put_octets(const char *label, const uint8_t *given, size_t count)
{
    put(label, 0);
    if (count == 0)
        put("-", 0);
    for (size_t i = 0; i < count; i++) {
        line[length++] = "0123456789abcdef"[given[i] >> 4];
        line[length++] = "0123456789abcdef"[given[i] & 15];
    }
}

static void put_address(const char *label, size_t (*read)(const x25_station *, size_t, char *, size_t), const x25_station *station, size_t i)
{
    size_t count = read(station, i, NULL, 0);
    char *text = (char *)room(3, count);
    if (count > 15 || read(station, i, text, count) != count)
        fail("an address", (uint32_t)count);
    put(label, 0);
    put(count ? "" : "-", 0);
    for (size_t j = 0; j < count; j++)
        line[length++] = text[j];
}

static void put_sizes(x25_sizes s)
{
    if (s.size_called == 7 && s.size_calling == 7 && s.window_called == 2 && s.window_calling == 2)
        return;
    put(" size=%llu", s.size_called);
    put(",%llu", s.size_calling);
    put(" win=%llu", s.window_called);
    put(",%llu", s.window_calling);
}

static void put_reason(const x25_event *event)
{
    put(" cause=%llu", event->cause);
    put(" diag=%llu", event->diagnostic);
}

static void put_stretch(const x25_event *event)
{
    put(" at %llu", event->stretch.restarts);
    put(".%llu", event->stretch.clears);
    put(".%llu", event->stretch.resets);
}

/* Writes the line that an event stands for. */
static void write_event(end_t *end, size_t i, const x25_event *event, const uint8_t *user)
{
    static const char *const names[KINDS] = {
        "", "", "", "linkup", "linkdown ", "restarted", "restartdone", "fault", "beside", "diagnostic", "incoming", "connected", "collided",
        "cleared", "cleardone", "wasreset", "resetdone", "message", "interrupt", "intdone", "connect", "disconnect", "restart", "call", "accept",
        "clear", "send", "int", "reset", "ready", "notready", "relink", "timeout", "confirmed", "disconnected "};
    static const char *const endings[] = {"", "ua", "dm", "retries"};
    static const char *const reasons[] = {"", "retries", "disc", "dm", "frmr-sent", "frmr-got", "reset", "local", "counts"};
    unsigned kind = event->kind;
    length = 0;
    put(end == &dte ? "dte " : "dce ", 0);
    put(names[kind], 0);
    if (kind == X25_EVENT_LINK_DOWN)
        put(reasons[event->reason], 0);
    if (kind == X25_EVENT_DISCONNECTED)
        put(endings[event->reason], 0);
    if (kind == X25_EVENT_FAULT || kind == X25_EVENT_BESIDE || (kind >= X25_EVENT_INCOMING && kind < X25_EVENT_CONNECT_ASKED)
        || (kind >= X25_EVENT_CALL_ASKED && kind < X25_EVENT_RELINK_ASKED) || kind == X25_EVENT_CONFIRMED)
        put(" ch=%llu", event->channel);
    if (kind == X25_EVENT_INCOMING || kind == X25_EVENT_CALL_ASKED || kind == X25_EVENT_MESSAGE || kind == X25_EVENT_SEND_ASKED
        || kind == X25_EVENT_INTERRUPT || kind == X25_EVENT_INTERRUPT_ASKED || kind == X25_EVENT_CONFIRMED)
        put_stretch(event);
    if (kind == X25_EVENT_INCOMING || kind == X25_EVENT_CALL_ASKED) {
        put_address(" called=", x25_called, &end->station, i);
        put_address(" calling=", x25_calling, &end->station, i);
    }
    if (kind == X25_EVENT_MESSAGE || kind == X25_EVENT_SEND_ASKED)
        put(event->d ? " q=%llu d=1" : " q=%llu", event->q);
    if (kind == X25_EVENT_BESIDE) {
        size_t count = x25_facilities(&end->station, i, NULL, 0);
        uint8_t *field = room(3, count);
        x25_facilities(&end->station, i, field, count);
        put_octets(" fac=", field, count);
    }
    if (event->count || kind == X25_EVENT_INCOMING || kind == X25_EVENT_CALL_ASKED || kind == X25_EVENT_MESSAGE || kind == X25_EVENT_SEND_ASKED
        || kind == X25_EVENT_BESIDE)
        put_octets(" data=", user, event->count);
    if (kind == X25_EVENT_INCOMING || kind == X25_EVENT_CALL_ASKED || kind == X25_EVENT_CONNECTED || kind == X25_EVENT_ACCEPT_ASKED)
        put_sizes(event->sizes);
    if (kind == X25_EVENT_RESTARTED || kind == X25_EVENT_CLEARED || kind == X25_EVENT_RESET)
        put_reason(event);
    if ((kind == X25_EVENT_RESTART_ASKED || kind == X25_EVENT_CLEAR_ASKED || kind == X25_EVENT_RESET_ASKED) && event->cause)
        put(" cause=%llu", event->cause);
    if ((kind == X25_EVENT_RESTART_ASKED || kind == X25_EVENT_CLEAR_ASKED || kind == X25_EVENT_RESET_ASKED) && event->diagnostic)
        put(" diag=%llu", event->diagnostic);
    if (kind == X25_EVENT_FAULT || kind == X25_EVENT_DIAGNOSTIC)
        put(" diag=%llu", event->diagnostic);
    if (kind == X25_EVENT_CONFIRMED)
        put(" count=%llu", event->confirmed);
    put("\n", 0);
}

static bool are_same(const x25_event *a, const x25_event *b)
{
    return a->kind == b->kind && a->channel == b->channel && a->q == b->q && a->d == b->d && a->cause == b->cause
        && a->diagnostic == b->diagnostic && a->reason == b->reason && memcmp(&a->sizes, &b->sizes, sizeof a->sizes) == 0
        && a->timer == b->timer && memcmp(&a->stretch, &b->stretch, sizeof a->stretch) == 0 && a->count == b->count
        && a->confirmed == b->confirmed;
}

/* Takes all items at once, and at times fewer, and compares them with those that are taken one by one, which have so many octets. */
static void take_all(const x25_station *station, size_t items, size_t octets)
{
    size_t first = draw(4) ? 0 : draw((uint32_t)items + 2), most = draw(4) ? items : draw((uint32_t)items + 1), size = draw(4) ? octets : draw((uint32_t)octets + 1);
    x25_event *events = (x25_event *)(void *)room(5, most * sizeof *events), event;
    uint8_t *taken = room(6, size);
    size_t count = x25_take_all(station, first, events, most, taken, size), at = 0;
    for (size_t i = 0; i < count; i++) {
        uint8_t *user = room(1, events[i].count);
        if (!x25_take(station, first + i, &event, user, events[i].count) || !are_same(&event, &events[i]) || at + event.count > size
            || (event.count && memcmp(user, taken + at, event.count)))
            fail("an item of all", (uint32_t)i);
        at += event.count;
    }
    bool is_there = x25_take(station, first + count, &event, NULL, 0);
    if (count > most || (is_there && count < most && at + event.count <= size))
        fail("few items of all", (uint32_t)count);
}

static long seen[KINDS];

/* Takes the items of an answer one by one, and compares them with its frames and entries. */
static void take(end_t *end)
{
    size_t frames = x25_frames(&end->station), entries = x25_entries(&end->station), passed = 0, i = 0, count = 0;
    x25_event event;
    size_t all = 0;
    if (frames > 17 * came || entries > 3 * came)
        fail("many frames or entries", (uint32_t)(frames * 100 + entries));
    for (; x25_take(&end->station, i, &event, NULL, 0); i++) {
        uint8_t *taken = room(1, event.count), *told;
        if (!x25_take(&end->station, i, &event, taken, event.count) || event.kind < 1 || event.kind >= KINDS)
            fail("an item", event.kind);
        seen[event.kind]++;
        all += event.count;
        if (event.kind == X25_EVENT_TIMEOUT) {
            unsigned tens = end == &dte ? 20 : 10;
            if (i != frames || (event.reason != 1 && event.reason != 3 && (event.reason < tens || event.reason > tens + 3)))
                fail("a timer that passed", event.reason);
            passed = 1;
            continue;
        }
        if ((event.kind == X25_EVENT_FRAME) != (i < frames) || (event.kind == X25_EVENT_TIMER) != (i == frames + passed + entries))
            fail("its place", (uint32_t)i);
        if (event.kind == X25_EVENT_TIMER) {
            expect("the timer", event.timer, x25_timer(&end->station));
            continue;
        }
        if (event.kind == X25_EVENT_FRAME) {
            told = room(2, event.count);
            count = x25_frame(&end->station, i, told, event.count);
            if (count != event.count || memcmp(told, taken, count))
                fail("a frame", (uint32_t)count);
            continue;
        }
        write_event(end, i, &event, taken);
        told = room(2, length);
        expect("entry", x25_entry(&end->station, i - frames - passed, (char *)told, length, &count), 0);
        if (count != length || memcmp(told, line, count))
            fail(line, event.kind);
    }
    if (i != frames + passed + entries + 1)
        fail("many items", (uint32_t)i);
    take_all(&end->station, i, all);
    take_frames(end);
    if (end->next - end->first > MOST / 2)
        end->first = end->next;
}

static void begin(end_t *end, uint8_t at, uint8_t channels)
{
    x25_settings settings = {.k = (uint8_t)(1 + draw(7)), .n2 = 3, .channels = channels, .long_data = draw(2), .say_sizes = draw(2), .wide = draw(2)};
    x25_free(&end->station);
    expect("new", x25_new(&end->station, at, settings), 0);
}

int main(int argc, char **argv)
{
    long did = 0, refused = 0, calls = argc > 2 ? atol(argv[2]) : 100000;
    state = argc > 1 ? strtoull(argv[1], NULL, 10) : 1;
    make_areas();
    for (long i = 0; i < calls; i++) {
        end_t *end = draw(2) ? &dte : &dce;
        if (i % 5000 == 0) {
            uint8_t channels = (uint8_t)(1 + draw(2));
            begin(&dte, X25_DTE, channels);
            begin(&dce, X25_DCE, channels);
        }
        uint32_t number = call(end, end == &dte ? &dce : &dte);
        if (number)
            refused++;
        else
            did++;
        if (number == X25_NO_STATION || number == X25_NO_MEMORY || (number && x25_refusal_text(number, NULL, 0) == 0))
            fail("a number", number);
        if (number != X25_NO_COMMAND)
            take(end);
        x25_idle(&end->station);
        x25_stretch(&end->station, (uint16_t)draw(4), &(x25_stretch_name){0, 0, 0});
    }
    x25_free(&dte.station);
    x25_free(&dce.station);
    for (uint32_t kind = 1; kind < KINDS && calls >= ALL; kind++)
        if (seen[kind] == 0)
            fail("a kind of item that didn't come", kind);
    printf("%ld did, %ld refused\n", did, refused);
    return 0;
}
