/* Plays what crates/x25_embed plays, and prints the same: a link is set up, the frame of a call is lost and comes again as
   timer T1 fires, and each end sends a message. Calls that are refused are tried before. */
#include "two.h"

static const x25_sizes no_sizes = {0, 0, 0, 0};

static void take(end_t *end)
{
    take_frames(end);
    for (size_t i = 0; i < x25_entries(&end->station); i++) {
        size_t count = 0;
        expect("entry", x25_entry(&end->station, i, end->told + end->length, TEXT - end->length, &count), 0);
        end->length += count;
    }
}

static void ask(end_t *end, const char *text)
{
    expect(text, x25_command(&end->station, text, strlen(text)), 0);
    take(end);
}

static void send_message(end_t *end, const char *text)
{
    expect("send", x25_send(&end->station, 1, false, (const uint8_t *)text, strlen(text)), 0);
    take(end);
}

static bool deliver(end_t *from, end_t *to)
{
    size_t count;
    uint8_t *octets = next_frame(from, &count);
    if (octets == NULL)
        return false;
    expect("receive", x25_receive(&to->station, octets, count), 0);
    take(to);
    return true;
}

static void deliver_all(void)
{
    bool is_sent, is_answered;
    do {
        is_sent = deliver(&dte, &dce);
        is_answered = deliver(&dce, &dte);
    } while (is_sent || is_answered);
}

static void try_refusals(void)
{
    x25_station *station = &dte.station;
    uint8_t room[4] = {1, 2, 3, 4};
    char text[4] = "abc";
    x25_event event = {.kind = 77};
    uint16_t channel = 78;
    size_t count = 7;
    expect("t1 of none", x25_t1(station), X25_NO_STATION);
    expect("connect of none", x25_connect(station), X25_NO_STATION);
    expect("receive of none", x25_receive(station, room, 4), X25_NO_STATION);
    expect("send of none", x25_send(station, 1, false, room, 4), X25_NO_STATION);
    expect("send of none with confirmation", x25_send_asking(station, 1, false, room, 4), X25_NO_STATION);
    expect("command of none", x25_command(station, "connect", 7), X25_NO_STATION);
    expect("entry of none", x25_entry(station, 0, text, 4, &count), X25_NO_STATION);
    expect("entry of none, its length", (uint32_t)count, 7);
    expect("disconnect of none", x25_disconnect(station), X25_NO_STATION);
    expect("restart of none", x25_restart(station, 0, 0), X25_NO_STATION);
    expect("call of none", x25_call(station, "1", 1, "2", 1, room, 4, no_sizes, &channel), X25_NO_STATION);
    expect("call of none with what is given", x25_call_with(station, "1", 1, "2", 1, room, 4, no_sizes, (x25_given){.d = true}, &channel), X25_NO_STATION);
    expect("call of none, its channel", channel, 78);
    expect("accept of none", x25_accept(station, 1, no_sizes), X25_NO_STATION);
    expect("accept of none with what is given", x25_accept_with(station, 1, no_sizes, (x25_given){.d = true}), X25_NO_STATION);
    expect("clear of none", x25_clear(station, 1, 0, 0), X25_NO_STATION);
    expect("clear of none with what is given", x25_clear_with(station, 1, 0, 0, (x25_given){.user = room, .user_count = 4}), X25_NO_STATION);
    expect("reset of none", x25_reset(station, 1, 0, 0), X25_NO_STATION);
    expect("interrupt of none", x25_interrupt(station, 1, room, 4), X25_NO_STATION);
    expect("ready of none", x25_ready(station, 1), X25_NO_STATION);
    expect("not ready of none", x25_not_ready(station, 1), X25_NO_STATION);
    expect("pull of none", x25_pull(station), X25_NO_STATION);
    expect("item of none", x25_take(station, 0, &event, room, 4), false);
    expect("item of none, its kind", event.kind, 77);
    expect("addresses of none", (uint32_t)(x25_called(station, 0, text, 4) + x25_calling(station, 0, text, 4)), 0);
    expect("facilities of none", (uint32_t)x25_facilities(station, 0, room, 4), 0);
    expect("frame of none", (uint32_t)x25_frame(station, 0, room, 4), 0);
    expect("frames of none", (uint32_t)x25_frames(station), 0);
    expect("entries of none", (uint32_t)x25_entries(station), 0);
    expect("timer of none", x25_timer(station), X25_TIMER_OFF);
    expect("none is idle", x25_idle(station), false);
    expect("room of none", (uint32_t)(x25_room(station, 1) + x25_unconfirmed(station, 1)), 0);
    expect("stretch of none", x25_stretch(station, 1, &(x25_stretch_name){0}), false);
    expect("a bad end", x25_new(station, 2, one_channel), X25_BAD_SETTING);
    expect("a bad window", x25_new(station, X25_DTE, (x25_settings){.k = 8, .n2 = 10, .channels = 1}), X25_BAD_SETTING);
    expect("no channel", x25_new(station, X25_DTE, (x25_settings){.k = 7, .n2 = 10}), X25_BAD_SETTING);
    expect("too many channels", x25_new(station, X25_DTE, (x25_settings){.k = 7, .n2 = 10, .channels = 4096}), X25_BAD_SETTING);
    expect("too many one-way", x25_new(station, X25_DTE, (x25_settings){.k = 7, .n2 = 10, .channels = 3, .incoming = 2, .outgoing = 2}), X25_BAD_SETTING);
    expect("a setting of a later version", x25_new(station, X25_DTE, (x25_settings){.k = 7, .n2 = 10, .channels = 1, .more = 1}), X25_BAD_SETTING);
    expect("new", x25_new(station, X25_DTE, one_channel), 0);
    expect("new again", x25_new(station, X25_DTE, one_channel), X25_IN_USE);
    expect("sing", x25_command(station, "sing 1", 6), X25_NO_COMMAND);
    expect("a call while the link is down", x25_command(station, "call 123 4567 41", 16), X25_LINK_NOT_UP);
    expect("T1 that doesn't run", x25_t1(station), X25_TIMER_NOT_RUNNING);
    expect("a new station is idle", x25_idle(station), false);
}

/* Copies the one frame of a SABM into too little room, and into enough. */
static void try_rooms(void)
{
    uint8_t room[8] = {9, 9, 9, 9, 9, 9, 9, 9};
    expect("frames", (uint32_t)x25_frames(&dte.station), 1);
    expect("a frame into little room", (uint32_t)x25_frame(&dte.station, 0, room, 3), 4);
    expect("what is there then", room[0], 9);
    expect("a frame", (uint32_t)x25_frame(&dte.station, 0, room, 8), 4);
    expect("its address and control", (uint32_t)(room[0] << 8 | room[1]), 0x013f);
    expect("what is behind it", room[4], 9);
    expect("a frame that isn't there", (uint32_t)x25_frame(&dte.station, 1, room, 8), 0);
}

static void try_texts(void)
{
    char room[8] = {9, 9, 9, 9, 9, 9, 9, 9};
    expect("the version", x25_version(), X25_VERSION);
    expect("the size of an event", (uint32_t)x25_event_size(), sizeof(x25_event));
    expect("a text into little room", (uint32_t)x25_refusal_text(X25_NO_MEMORY, room, 8), 9);
    expect("what is there then", room[0], 9);
    expect("a text", (uint32_t)x25_refusal_text(X25_NO_MEMORY, dte.told, TEXT), 9);
    expect("its octets", memcmp(dte.told, "no memory", 9) != 0, 0);
    for (uint32_t number = 0; number < 100; number++)
        if (x25_refusal_text(number, dte.told, TEXT) > 64)
            fail("a long text", number);
    expect("a number that is none", (uint32_t)x25_refusal_text(0, room, 8), 0);
}

/* The stretch of a channel, and what it was asked with where none is open. */
static void try_stretch(uint16_t channel, bool is_open)
{
    x25_stretch_name name = {7, 8, 9};
    expect("a stretch is open", x25_stretch(&dte.station, channel, &name), is_open);
    expect("its restarts", (uint32_t)name.restarts, is_open ? 1 : 7);
    expect("its clears", (uint32_t)name.clears, is_open ? 0 : 8);
    expect("its resets", (uint32_t)name.resets, is_open ? 0 : 9);
}

/* Calls on channels that aren't one-way for the other end's: of two, 1 is one-way incoming. */
static void try_one_way(void)
{
    const x25_settings settings = {.k = 7, .n2 = 10, .channels = 2, .incoming = 1};
    uint16_t channel = 0;
    expect("new", x25_new(&dte.station, X25_DTE, settings), 0);
    expect("new", x25_new(&dce.station, X25_DCE, settings), 0);
    expect("connect", x25_connect(&dte.station), 0);
    take(&dte);
    deliver_all();
    expect("call", x25_call(&dte.station, "1", 1, "2", 1, NULL, 0, no_sizes, &channel), 0);
    expect("its channel", channel, 2);
    take(&dte);
    deliver_all();
    expect("one more", x25_call(&dte.station, "1", 1, "2", 1, NULL, 0, no_sizes, &channel), X25_NO_FREE_CHANNEL);
    expect("call of the DCE", x25_call(&dce.station, "1", 1, "2", 1, NULL, 0, no_sizes, &channel), 0);
    expect("its channel", channel, 1);
    take(&dce);
    x25_free(&dte.station);
    x25_free(&dce.station);
}

/* A call on the highest of all channels there are, and a message each way. */
static void try_many(void)
{
    const x25_settings settings = {.k = 7, .n2 = 10, .channels = 4095};
    uint16_t channel = 0;
    expect("new", x25_new(&dte.station, X25_DTE, settings), 0);
    expect("new", x25_new(&dce.station, X25_DCE, settings), 0);
    expect("connect", x25_connect(&dte.station), 0);
    take(&dte);
    deliver_all();
    expect("call", x25_call(&dte.station, "1", 1, "2", 1, NULL, 0, no_sizes, &channel), 0);
    take(&dte);
    expect("its channel", channel, 4095);
    deliver_all();
    expect("accept", x25_accept(&dce.station, channel, no_sizes), 0);
    take(&dce);
    deliver_all();
    try_stretch(channel, true);
    try_stretch(channel - 1, false);
    expect("send", x25_send(&dte.station, channel, false, (const uint8_t *)"hi", 2), 0);
    take(&dte);
    expect("send", x25_send(&dce.station, channel, true, (const uint8_t *)"ho", 2), 0);
    take(&dce);
    deliver_all();
    expect("idle", x25_idle(&dte.station) && x25_idle(&dce.station), true);
    expect("no such channel", x25_send(&dte.station, 4096, false, (const uint8_t *)"hi", 2), X25_NO_CHANNEL);
    x25_free(&dte.station);
    x25_free(&dce.station);
}

/* A call between two new stations, of which the DTE says sizes: its facilities are packet sizes of 128 octets and windows of 2. */
static void try_sizes(void)
{
    static const uint8_t call[] = {0x10, 0x01, 0x0b, 0x11, 0x12, 0x06, 0x42, 0x07, 0x07, 0x43, 0x02, 0x02};
    x25_settings says_sizes = one_channel;
    says_sizes.say_sizes = true;
    expect("new", x25_new(&dte.station, X25_DTE, says_sizes), 0);
    expect("new", x25_new(&dce.station, X25_DCE, one_channel), 0);
    expect("connect", x25_connect(&dte.station), 0);
    take(&dte);
    deliver_all();
    ask(&dte, "call 1 2 -");
    size_t count = 0;
    uint8_t *octets = next_frame(&dte, &count);
    expect("a call, its length", (uint32_t)count, sizeof call + 4);
    expect("its octets", memcmp(octets + 2, call, sizeof call) != 0, 0);
    x25_free(&dte.station);
    x25_free(&dce.station);
}

/* A call between two new stations, whose messages have two octets at most. */
static void try_longest(void)
{
    x25_settings two_octets = one_channel;
    two_octets.message = 2;
    expect("new", x25_new(&dte.station, X25_DTE, two_octets), 0);
    expect("new", x25_new(&dce.station, X25_DCE, two_octets), 0);
    expect("connect", x25_connect(&dte.station), 0);
    take(&dte);
    deliver_all();
    ask(&dte, "call 1 2 -");
    deliver_all();
    ask(&dce, "accept 1");
    deliver_all();
    expect("a message of three octets", x25_send(&dte.station, 1, false, (const uint8_t *)"abc", 3), X25_TOO_LONG);
    expect("one of two", x25_send(&dte.station, 1, false, (const uint8_t *)"ab", 2), 0);
    x25_free(&dte.station);
    x25_free(&dce.station);
}

/* An acceptance with both of its lengths, 0, as Linux writes it: a station takes it that reads in all forms, and any other clears. */
static void try_forms(bool wide)
{
    static const uint8_t acceptance[] = {0x03, 0x42, 0x10, 0x01, 0x0f, 0x00, 0x00, 0xa5, 0xcc};
    x25_settings settings = one_channel;
    settings.wide = wide;
    expect("new", x25_new(&dte.station, X25_DTE, settings), 0);
    expect("new", x25_new(&dce.station, X25_DCE, one_channel), 0);
    expect("connect", x25_connect(&dte.station), 0);
    take(&dte);
    deliver_all();
    ask(&dte, "call 1 2 -");
    dte.first = dte.next;
    dte.length = 0;
    expect("an acceptance", x25_receive(&dte.station, acceptance, sizeof acceptance), 0);
    take(&dte);
    expect("connected", strncmp(dte.told, "dte connected ch=1", 18) == 0, wide);
    dte.first = dte.next;
    x25_free(&dte.station);
    x25_free(&dce.station);
}

/* An acceptance with a facility that a station doesn't know and an octet of user data: both are told beside it. */
static void try_beside(void)
{
    static const uint8_t ua[] = {0x01, 0x73, 0x83, 0x57}, restart[] = {0x03, 0x00, 0x10, 0x00, 0xfb, 0x07, 0x4c, 0xd4};
    static const uint8_t acceptance[] = {0x03, 0x42, 0x10, 0x01, 0x0f, 0x11, 0x12, 0x02, 0x02, 0xaa, 0xc0, 0x93, 0x63};
    x25_settings settings = one_channel;
    x25_event event;
    uint8_t room[8];
    uint16_t channel = 0;
    settings.wide = true;
    expect("new", x25_new(&dte.station, X25_DTE, settings), 0);
    expect("connect", x25_connect(&dte.station), 0);
    expect("UA", x25_receive(&dte.station, ua, sizeof ua), 0);
    expect("a restart", x25_receive(&dte.station, restart, sizeof restart), 0);
    expect("call", x25_call(&dte.station, "1", 1, "2", 1, NULL, 0, no_sizes, &channel), 0);
    expect("its channel", channel, 1);
    expect("an acceptance", x25_receive(&dte.station, acceptance, sizeof acceptance), 0);
    size_t i = x25_frames(&dte.station) + 1;
    expect("beside", x25_take(&dte.station, i, &event, room, sizeof room), true);
    expect("its kind", event.kind, X25_EVENT_BESIDE);
    expect("user data", event.count == 1 && room[0] == 0xc0, true);
    expect("facilities", x25_facilities(&dte.station, i, room, sizeof room) == 2 && room[0] == 0x02 && room[1] == 0xaa, true);
    expect("no address", (uint32_t)x25_called(&dte.station, i, NULL, 0), 0);
    x25_free(&dte.station);
}

/* The octets of all frames of the last answer, and how many each has; answers how many there are. */
static size_t frames_of(const x25_station *station, uint8_t *octets, size_t *counts)
{
    size_t frames = x25_frames(station), at = 0;
    for (size_t i = 0; i < frames; i++, at += counts[i - 1])
        counts[i] = x25_frame(station, i, octets + at, ROOM);
    return frames;
}

/* Frames that come at once are answered as frames that come one by one: one DCE hears them so, and its twin so. */
static void try_all(void)
{
    static uint8_t octets[2][MOST * ROOM], message[4000], room[1 << 16];
    static x25_event events[MOST];
    size_t counts[2][MOST] = {{0}}, few = 0, taken = 7, batches = 0;
    x25_station twin = {NULL, false};
    uint16_t channel = 0;
    expect("frames of none", x25_receive_all(&twin, octets[0], 0, counts[0], 0, &taken), X25_NO_STATION);
    expect("how many were taken", (uint32_t)taken, 0);
    expect("items of none", (uint32_t)x25_take_all(&twin, 0, events, MOST, room, sizeof room), 0);
    expect("new", x25_new(&dte.station, X25_DTE, one_channel), 0);
    expect("new", x25_new(&dce.station, X25_DCE, one_channel), 0);
    expect("new", x25_new(&twin, X25_DCE, one_channel), 0);
    expect("connect", x25_connect(&dte.station), 0);
    for (int step = 0; step < 3; step++) {
        if (step == 1)
            expect("call", x25_call(&dte.station, "1", 1, "2", 1, NULL, 0, no_sizes, &channel), 0);
        if (step == 2) {
            uint32_t numbers[] = {x25_accept(&dce.station, channel, no_sizes), x25_accept(&twin, channel, no_sizes)};
            expect("accept", numbers[0] + numbers[1], 0);
            few = frames_of(&dce.station, octets[0], counts[0]);
            expect("receive", x25_receive_all(&dte.station, octets[0], ROOM, counts[0], few, &taken), 0);
            expect("send", x25_send(&dte.station, channel, true, message, sizeof message), 0);
        }
        for (size_t many; (many = frames_of(&dte.station, octets[0], counts[0])) > 0; batches += many > 1) {
            size_t all = 0, at = 0;
            uint32_t timer = X25_TIMER_GOES_ON;
            for (size_t i = 0; i < many; i++)
                all += counts[0][i];
            expect("receive", x25_receive_all(&dce.station, octets[0], all, counts[0], many, &taken), 0);
            expect("how many were taken", (uint32_t)taken, (uint32_t)many);
            size_t items = x25_take_all(&dce.station, 0, events, MOST, room, sizeof room), place = 0, user = 0, frames = x25_frames(&dce.station);
            for (size_t i = 0; i < many; at += counts[0][i++]) {
                expect("receive", x25_receive(&twin, octets[0] + at, counts[0][i]), 0);
                x25_event event;
                for (size_t j = 0; x25_take(&twin, j, &event, octets[1], ROOM); j++) {
                    if (event.kind == X25_EVENT_TIMER)
                        timer = event.timer == X25_TIMER_GOES_ON ? timer : event.timer;
                    else if (event.kind != X25_EVENT_FRAME)
                        user += event.count;
                    else if (event.count != events[place].count || x25_frame(&dce.station, place++, room, ROOM) != event.count || memcmp(room, octets[1], event.count))
                        fail("another frame", (uint32_t)place);
                }
            }
            expect("as many frames", (uint32_t)place, (uint32_t)frames);
            expect("as many items", (uint32_t)items, (uint32_t)(frames + x25_entries(&dce.station) + 1));
            expect("the timer", x25_timer(&dce.station), timer);
            for (; place + 1 < items; place++)
                user -= events[place].count;
            expect("as many octets of users", (uint32_t)user, 0);
            few = frames_of(&dce.station, octets[1], counts[1]);
            expect("receive", x25_receive_all(&dte.station, octets[1], sizeof octets[1], counts[1], few, &taken), 0);
        }
    }
    expect("frames came at once", batches > 3, true);
    expect("idle", x25_idle(&dte.station) && x25_idle(&dce.station) && x25_idle(&twin), true);
    expect("disconnect", x25_disconnect(&dte.station), 0);
    few = frames_of(&dte.station, octets[0], counts[0]);
    counts[0][1] = counts[0][0] + 1;
    memcpy(octets[0] + counts[0][0], octets[0], counts[0][0]);
    expect("octets that aren't there", x25_receive_all(&twin, octets[0], 2 * counts[0][0], counts[0], 2, &taken), X25_BAD_PARAMETER);
    expect("how many were taken", (uint32_t)taken, 1);
    expect("one event into one place", (uint32_t)x25_take_all(&twin, x25_frames(&twin), events, 1, room, 0), 1);
    expect("its kind", events[0].kind, X25_EVENT_LINK_DOWN);
    expect("a frame into no room", (uint32_t)x25_take_all(&twin, 0, events, MOST, room, 0), 0);
    x25_free(&dte.station);
    x25_free(&dce.station);
    x25_free(&twin);
}

/* A cause and a diagnostic: what a user gives is told at both ends, and a cause that isn't his to give is refused. */
static void try_reasons(void)
{
    x25_event event;
    expect("new", x25_new(&dte.station, X25_DTE, one_channel), 0);
    expect("new", x25_new(&dce.station, X25_DCE, one_channel), 0);
    expect("connect", x25_connect(&dte.station), 0);
    take(&dte);
    deliver_all();
    expect("a network's cause", x25_restart(&dte.station, 7, 0), X25_BAD_PARAMETER);
    expect("restart", x25_restart(&dte.station, 200, 5), 0);
    expect("its event", x25_take(&dte.station, x25_frames(&dte.station), &event, NULL, 0) && event.kind == X25_EVENT_RESTART_ASKED, true);
    expect("what it gave", event.cause == 200 && event.diagnostic == 5, true);
    take(&dte);
    dce.length = 0;
    deliver_all();
    expect("what is told", memcmp(dce.told, "dce restarted cause=200 diag=5\n", 31), 0);
    ask(&dte, "call 1 2 -");
    deliver_all();
    expect("reset where there is no data yet", x25_reset(&dte.station, 1, 0, 5), X25_BAD_STATE);
    ask(&dce, "accept 1");
    deliver_all();
    expect("reset", x25_reset(&dte.station, 1, 255, 6), 0);
    take(&dte);
    dce.length = 0;
    deliver_all();
    expect("what is told", memcmp(dce.told, "dce wasreset ch=1 cause=255 diag=6\n", 35), 0);
    expect("clear", x25_clear(&dce.station, 1, 9, 250), 0);
    take(&dce);
    dte.length = 0;
    deliver_all();
    expect("what is told", memcmp(dte.told, "dte cleared ch=1 cause=9 diag=250\n", 34), 0);
    dte.length = dce.length = 0;
    x25_free(&dte.station);
    x25_free(&dce.station);
}

/* The next frame of an end has this packet. */
static void sends(end_t *end, const char *what, const uint8_t *packet, size_t count)
{
    take(end);
    size_t place = end->first % MOST;
    expect(what, end->counts[place] == count + 4 && memcmp(end->octets[place] + 2, packet, count) == 0, true);
}

/* What comes to an end is told so at first. */
static void is_told(end_t *end, const char *lines)
{
    end->length = 0;
    deliver_all();
    expect(lines, end->length >= strlen(lines) && memcmp(end->told, lines, strlen(lines)) == 0, true);
}

static uint32_t call_with(x25_given given, uint16_t *channel)
{
    return x25_call_with(&dte.station, "1", 1, "2", 1, (const uint8_t *)"A", 1, no_sizes, given, channel);
}

/* What may not be given, of one that is wide, and of one that isn't anything. */
static void try_bad_givens(bool wide)
{
    static const uint8_t reverse[104] = {0x01, 0x01}, sizes[] = {0x42, 0x07, 0x07}, users[129] = "hi";
    const x25_given bad[] = {
        {.facilities = sizes, .facilities_count = 3}, {.facilities = reverse, .facilities_count = 1}, {.facilities = reverse, .facilities_count = 104},
        {.user = users, .user_count = 1}, {.facilities = reverse, .facilities_count = 2}, {.d = true}};
    uint16_t channel = 78;
    for (size_t i = 0; i < (wide ? 4 : 6); i++)
        expect("a bad thing beside a call", call_with(bad[i], &channel), X25_BAD_PARAMETER);
    expect("the channel", channel, 78);
    expect("facilities by text", x25_command(&dte.station, "with 420707 - call 1 2 -", 24), X25_BAD_PARAMETER);
    expect("no command", x25_command(&dte.station, "with 0101 call 1 2 -", 20), X25_NO_COMMAND);
    if (!wide)
        return;
    expect("call", x25_call(&dce.station, "1", 1, "2", 1, NULL, 0, no_sizes, &channel), 0);
    take(&dce);
    deliver_all();
    expect("much user data", x25_accept_with(&dte.station, channel, no_sizes, (x25_given){.user = users, .user_count = 129}), X25_BAD_PARAMETER);
    expect("D with a clearing", x25_clear_with(&dte.station, channel, 0, 0, (x25_given){.d = true}), X25_BAD_PARAMETER);
    expect("most user data", x25_accept_with(&dte.station, channel, no_sizes, (x25_given){.user = users, .user_count = 128}), 0);
    take(&dte);
    deliver_all();
    expect("most facilities", x25_clear_with(&dte.station, channel, 0, 0, (x25_given){.facilities = reverse, .facilities_count = 102}), 0);
    take(&dte);
    deliver_all();
}

/* A call, its acceptance and its clearing, with what is given and without: what goes out, and what the other end is told. */
static void try_given(bool wide)
{
    static const uint8_t reverse[] = {0x01, 0x01};
    static const uint8_t packets[2][3][9] = {
        {{0x10, 0x01, 0x0b, 0x11, 0x12, 0x00, 0x41}, {0x10, 0x01, 0x0f}, {0x10, 0x01, 0x13, 0x00, 0x05}},
        {{0x50, 0x01, 0x0b, 0x11, 0x12, 0x02, 0x01, 0x01, 0x41}, {0x50, 0x01, 0x0f, 0x00, 0x02, 0x01, 0x01, 0x68, 0x69}, {0x10, 0x01, 0x13, 0x00, 0x05, 0x00, 0x00, 0x68, 0x69}}};
    static const size_t counts[2][3] = {{7, 3, 5}, {9, 9, 9}};
    static const char *const told[2][3] = {
        {"dce incoming ch=1 at 1.0.0 called=1 calling=2 data=41\n", "dte connected ch=1\n", "dce cleared ch=1 cause=0 diag=5\n"},
        {"dce incoming ch=1 at 1.1.0 called=1 calling=2 data=41\ndce beside ch=1 fac=0101 data=-\n", "dte connected ch=1\ndte beside ch=1 fac=0101 data=6869\n",
         "dce cleared ch=1 cause=0 diag=5\ndce beside ch=1 fac=- data=6869\n"}};
    x25_settings settings = one_channel;
    settings.wide = wide;
    expect("new", x25_new(&dte.station, X25_DTE, settings), 0);
    settings.wide = true;
    expect("new", x25_new(&dce.station, X25_DCE, settings), 0);
    expect("connect", x25_connect(&dte.station), 0);
    take(&dte);
    deliver_all();
    for (int i = 0; i < (wide ? 2 : 1); i++) {
        x25_given given = {0}, said = {0};
        uint16_t channel = 78;
        if (i == 1) {
            said = (x25_given){.user = (const uint8_t *)"hi", .user_count = 2};
            given = (x25_given){.facilities = reverse, .facilities_count = 2, .d = true};
        }
        expect("a call", call_with(given, &channel), 0);
        expect("the channel", channel, 1);
        sends(&dte, "a call", packets[i][0], counts[i][0]);
        is_told(&dce, told[i][0]);
        given.user = said.user;
        given.user_count = said.user_count;
        expect("an acceptance", x25_accept_with(&dce.station, 1, no_sizes, given), 0);
        sends(&dce, "an acceptance", packets[i][1], counts[i][1]);
        is_told(&dte, told[i][1]);
        expect("a clearing", x25_clear_with(&dte.station, 1, 0, 5, said), 0);
        sends(&dte, "a clearing", packets[i][2], counts[i][2]);
        is_told(&dce, told[i][2]);
    }
    try_bad_givens(wide);
    dte.length = dce.length = 0;
    x25_free(&dte.station);
    x25_free(&dce.station);
}

/* A message whose confirmation is asked: D of its packet, what both ends are told, and how many are unconfirmed. */
static void try_confirmed(bool wide)
{
    static const uint8_t packet[] = {0x50, 0x01, 0x00, 0x68, 0x69};
    static const char told[] = "dte send ch=1 at 1.0.0 q=0 d=1 data=6869\ndte confirmed ch=1 at 1.0.0 count=1\n";
    x25_settings settings = one_channel;
    x25_event event;
    settings.wide = wide;
    expect("new", x25_new(&dte.station, X25_DTE, settings), 0);
    expect("new", x25_new(&dce.station, X25_DCE, settings), 0);
    expect("connect", x25_connect(&dte.station), 0);
    take(&dte);
    deliver_all();
    ask(&dte, "call 1 2 -");
    deliver_all();
    ask(&dce, "accept 1");
    deliver_all();
    dte.length = 0;
    uint32_t number = x25_send_asking(&dte.station, 1, false, packet + 3, 2);
    expect("a message to be confirmed", number, wide ? 0 : X25_BAD_PARAMETER);
    expect("what is unconfirmed", (uint32_t)x25_unconfirmed(&dte.station, 1), wide);
    expect("what is unconfirmed on no channel", (uint32_t)x25_unconfirmed(&dte.station, 2), 0);
    if (wide) {
        expect("what was asked", x25_take(&dte.station, x25_frames(&dte.station), &event, NULL, 0) && event.kind == X25_EVENT_SEND_ASKED && event.d && !event.q, true);
        sends(&dte, "a message", packet, sizeof packet);
        is_told(&dce, "dce message ch=1 at 1.0.0 q=0 d=1 data=6869\n");
        expect("what is confirmed", dte.length == strlen(told) && memcmp(dte.told, told, dte.length) == 0, true);
        expect("its event", x25_take(&dte.station, x25_frames(&dte.station), &event, NULL, 0) && event.kind == X25_EVENT_CONFIRMED, true);
        expect("what it has", event.channel == 1 && event.stretch.restarts == 1 && event.confirmed == 1 && event.count == 0, true);
        expect("what is unconfirmed", (uint32_t)x25_unconfirmed(&dte.station, 1), 0);
    }
    dte.length = dce.length = 0;
    x25_free(&dte.station);
    x25_free(&dce.station);
}

/* An interrupt that isn't confirmed has its call reset. */
static void try_interrupt_timer(void)
{
    x25_times times = {.t26 = 500, .t22 = 900};
    x25_event event;
    uint64_t at;
    expect("new", x25_new(&dte.station, X25_DTE, one_channel), 0);
    expect("new", x25_new(&dce.station, X25_DCE, one_channel), 0);
    expect("times", x25_set_times(&dte.station, times), 0);
    expect("a time", x25_time(&dte.station, 1000), 0);
    expect("connect", x25_connect(&dte.station), 0);
    take(&dte);
    deliver_all();
    ask(&dte, "call 1 2 -");
    deliver_all();
    ask(&dce, "accept 1");
    deliver_all();
    ask(&dte, "int 1 07");
    expect("what is awaited", x25_awaits(&dte.station, 1), X25_AWAITS_INTERRUPT_DONE);
    expect("T26 begins", x25_next(&dte.station, &at) && at == 1500, true);
    expect("T26", x25_time(&dte.station, 1500), 0);
    size_t i = x25_frames(&dte.station);
    expect("its event", x25_take(&dte.station, i, &event, NULL, 0) && event.kind == X25_EVENT_TIMEOUT && event.reason == 26 && event.channel == 1, true);
    expect("what it asked", x25_take(&dte.station, i + 1, &event, NULL, 0) && event.kind == X25_EVENT_RESET_ASKED && event.channel == 1, true);
    expect("what is awaited", x25_awaits(&dte.station, 1), X25_AWAITS_RESET_DONE);
    expect("T22 begins", x25_next(&dte.station, &at) && at == 2400, true);
    x25_free(&dte.station);
    x25_free(&dce.station);
}

/* A data packet that isn't acknowledged has its call reset, with a diagnostic of its own. */
static void try_window_timer(void)
{
    x25_times times = {.t25 = 500, .t22 = 900};
    x25_event event;
    uint64_t at;
    expect("new", x25_new(&dte.station, X25_DTE, one_channel), 0);
    expect("new", x25_new(&dce.station, X25_DCE, one_channel), 0);
    expect("times", x25_set_times(&dte.station, times), 0);
    expect("a time", x25_time(&dte.station, 1000), 0);
    expect("connect", x25_connect(&dte.station), 0);
    take(&dte);
    deliver_all();
    ask(&dte, "call 1 2 -");
    deliver_all();
    ask(&dce, "accept 1");
    deliver_all();
    ask(&dte, "send 1 0 07");
    expect("nothing is awaited", x25_awaits(&dte.station, 1), X25_AWAITS_NOTHING);
    expect("T25 begins", x25_next(&dte.station, &at) && at == 1500, true);
    expect("T25", x25_time(&dte.station, 1500), 0);
    size_t i = x25_frames(&dte.station);
    expect("its event", x25_take(&dte.station, i, &event, NULL, 0) && event.kind == X25_EVENT_TIMEOUT && event.reason == 25 && event.channel == 1, true);
    expect("what it asked", x25_take(&dte.station, i + 1, &event, NULL, 0) && event.kind == X25_EVENT_RESET_ASKED && event.channel == 1 && event.diagnostic == 146, true);
    expect("T22 begins", x25_next(&dte.station, &at) && at == 2400, true);
    x25_free(&dte.station);
    x25_free(&dce.station);
}

/* By a clock what isn't answered is asked for by itself, and the answer tells the timer: of a call that isn't accepted. */
static void try_clock(void)
{
    x25_station none = {NULL, false};
    x25_times times = {7, 7, 7, 7, 7, 7, 7, 7};
    x25_event event;
    uint64_t at = 7;
    uint16_t channel = 0;
    dte.first = dte.next;
    dce.first = dce.next;
    expect("times of no end", x25_standard_times(2, &times) == X25_BAD_SETTING && times.t1 == 7, true);
    expect("times of a DCE", x25_standard_times(X25_DCE, &times) == 0 && times.t1 == 3000 && times.t20 == 60000, true);
    expect("times of a DCE's interrupt", times.t26, 0);
    expect("times of a DTE", x25_standard_times(X25_DTE, &times) == 0 && times.t21 == 200000 && times.t23 == 180000, true);
    expect("times of its interrupt and of its data", times.t26 == 180000 && times.t25 == 0, true);
    expect("none has times", x25_set_times(&none, times), X25_NO_STATION);
    expect("none has a time", x25_time(&none, 1), X25_NO_STATION);
    expect("how long where there is none", x25_next_timeout(&none, 3, 5) == 5, true);
    expect("none is due", x25_next(&none, &at) || x25_awaits(&none, 1) || x25_is_restarting(&none), false);
    expect("new", x25_new(&dte.station, X25_DTE, one_channel), 0);
    expect("new", x25_new(&dce.station, X25_DCE, one_channel), 0);
    expect("without a clock nothing is due", x25_time(&dte.station, 500) == 0 && !x25_next(&dte.station, &at) && at == 7, true);
    expect("how long without a clock", x25_next_timeout(&dte.station, 3, UINT64_MAX) == UINT64_MAX, true);
    expect("times", x25_set_times(&dte.station, times), 0);
    expect("connect", x25_connect(&dte.station), 0);
    take(&dte);
    expect("T1 is due", x25_next(&dte.station, &at) && at == 3500, true);
    expect("how long until then", (uint32_t)x25_next_timeout(&dte.station, 600, 60000), 2900);
    expect("no longer than the most", (uint32_t)x25_next_timeout(&dte.station, 600, 100), 100);
    expect("where it is past", (uint32_t)x25_next_timeout(&dte.station, 9000, 100), 0);
    expect("before it is due", x25_time(&dte.station, 3499) == 0 && x25_frames(&dte.station) == 0, true);
    expect("an earlier time", x25_time(&dte.station, 3498), X25_BAD_PARAMETER);
    expect("T1", x25_time(&dte.station, 3500) == 0 && x25_frames(&dte.station) == 1, true);
    expect("its event", x25_take(&dte.station, 1, &event, NULL, 0) && event.kind == X25_EVENT_TIMEOUT && event.reason == 1 && event.channel == 0, true);
    deliver_all();
    expect("an idle link is due", x25_next(&dte.station, &at) && at == 63500, true);
    expect("call", x25_call(&dte.station, "1", 1, "2", 1, NULL, 0, no_sizes, &channel), 0);
    take(&dte);
    deliver_all();
    expect("what is awaited", x25_awaits(&dte.station, channel), X25_AWAITS_ACCEPTANCE);
    times.t3 = 0;
    expect("times", x25_set_times(&dte.station, times), 0);
    expect("the call is due", x25_next(&dte.station, &at) && at == 203500, true);
    expect("T21", x25_time(&dte.station, 203500), 0);
    size_t i = x25_frames(&dte.station);
    expect("its event", x25_take(&dte.station, i, &event, NULL, 0) && event.kind == X25_EVENT_TIMEOUT && event.reason == 21 && event.channel == channel, true);
    expect("what it asked", x25_take(&dte.station, i + 1, &event, NULL, 0) && event.kind == X25_EVENT_CLEAR_ASKED, true);
    expect("what is awaited", x25_awaits(&dte.station, channel), X25_AWAITS_CLEAR_DONE);
    expect("T23 begins", x25_next(&dte.station, &at) && at == 206500, true);
    x25_free(&dte.station);
    x25_free(&dce.station);
    try_interrupt_timer();
    try_window_timer();
    /* What was begun before a time was said begins as it is said first. */
    expect("new", x25_new(&dte.station, X25_DTE, one_channel), 0);
    expect("times", x25_set_times(&dte.station, times), 0);
    expect("connect", x25_connect(&dte.station), 0);
    expect("the first time", x25_time(&dte.station, 1000000) == 0 && x25_frames(&dte.station) == 0, true);
    expect("T1 begins then", x25_next(&dte.station, &at) && at == 1003000, true);
    expect("T1", x25_time(&dte.station, 1003000) == 0 && x25_frames(&dte.station) == 1, true);
    x25_free(&dte.station);
}

int main(void)
{
    try_texts();
    try_refusals();
    expect("new", x25_new(&dce.station, X25_DCE, one_channel), 0);
    expect("connect", x25_connect(&dte.station), 0);
    try_rooms();
    take(&dte);
    deliver_all();
    ask(&dte, "call 123 4567 41");
    dte.first++;
    if (!dte.has_deadline)
        fail("T1 has no deadline", 0);
    expect("t1", x25_t1(&dte.station), 0);
    take(&dte);
    deliver_all();
    try_stretch(1, false);
    expect("a call that isn't accepted", x25_open_calls(&dte.station) == 1 && x25_open_calls(&dce.station) == 0, true);
    ask(&dce, "accept 1");
    deliver_all();
    try_stretch(1, true);
    expect("a call that is up", x25_open_calls(&dte.station) == 1 && x25_open_calls(&dce.station) == 1, true);
    expect("room", (uint32_t)x25_room(&dte.station, 1), 8);
    expect("room where there is no channel", (uint32_t)x25_room(&dte.station, 2), 0);
    try_stretch(2, false);
    send_message(&dte, "hello");
    send_message(&dce, "hello yourself");
    deliver_all();
    expect("idle", x25_idle(&dte.station) && x25_idle(&dce.station), true);
    expect("deadlines", dte.has_deadline || dce.has_deadline, false);
    ask(&dte, "disconnect");
    deliver_all();
    expect("calls that are gone", x25_open_calls(&dte.station) + x25_open_calls(&dce.station) == 0, true);
    x25_free(&dte.station);
    x25_free(&dce.station);
    x25_free(&dce.station);
    expect("calls of none", x25_open_calls(&dce.station) == 0, true);
    expect("held", dte.station.is_open || dce.station.is_open, false);
    fwrite(dte.told, 1, dte.length, stdout);
    fwrite(dce.told, 1, dce.length, stdout);
    try_many();
    try_one_way();
    try_sizes();
    try_longest();
    try_forms(true);
    try_forms(false);
    try_beside();
    try_reasons();
    try_given(false);
    try_given(true);
    try_confirmed(false);
    try_confirmed(true);
    try_all();
    try_clock();
    return 0;
}
