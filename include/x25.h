/* x25.h: a station of X.25, DTE or DCE (ITU-T X.25 10/96): its link, LAPB, and its packet layer, at one end of a line.
 *
 * A program keeps an x25_station for each station, and hands its address to each call. All zeros hold no station; x25_new
 * makes one, and x25_free lets it go. A station has no socket and no thread: the program has the line, and timer T1 or the time.
 *
 * The calls from x25_connect to x25_time let something happen to a station, and leave their answer in it: frames to send,
 * frame check sequence included, events, and what becomes of timer T1. x25_take takes these one after another; the next such
 * call replaces them. Messages that wait go on with each of these calls.
 *
 * Each answers 0 where it did what it was asked, and else one of the numbers below: then the station is as before, nothing is
 * answered, and timer T1 goes on, or is off. (After X25_NO_COMMAND, X25_IN_USE of x25_new, and X25_BAD_PARAMETER of x25_time, the
 * last answer stands.) Each may answer X25_NO_STATION. X25_NO_MEMORY is of x25_new, x25_call, x25_accept, x25_send, their forms
 * with more but x25_clear_with, x25_command, x25_receive_all, x25_set_times and x25_entry alone. What else one answers stands beside it.
 *
 * An answer has at most 17 frames of at most 4,103 octets, and 4 events, of which one has at most 65,535 octets; that of
 * x25_receive_all has as many for each frame that was taken. Its memory is made with the station, and that of a channel with its
 * first call: what comes takes none, and reading it none but for x25_entry. A new station takes less than 470 kB, with 4,095 channels
 * less than 3 MB; one with all that may wait on 16 channels less than 11 MB.
 *
 * What the library can't see, and the program has to keep:
 * - An x25_station that holds a station isn't copied, only the library reads and writes its fields, and it is in one call at
 *   a time. One that takes it as const leaves it as it was; it writes to it meanwhile. It may be handed to another thread, by
 *   a lock, a thread's start or join, or a sequentially consistent atomic.
 * - A pointer leads to memory that no other parameter of the call leads to. It isn't null, but where its count is 0.
 * - The library takes memory from malloc, realloc and free alone. They are of one allocator, and it aligns a block to each
 *   power of two up to 16 that divides its size.
 * - No call from a signal handler, or from the forked child of a process with threads.
 */
#ifndef X25_H
#define X25_H

#include <stdbool.h>
#include <stddef.h>
#include <stdint.h>

#ifdef __cplusplus
extern "C" {
#endif

/* 0.1.0, as 10,000 times its first number, 100 times the second, and the third. x25_version tells that of the library. */
#define X25_VERSION 100

typedef struct {
    void *at;
    bool is_open;
} x25_station;

/* The settings of a station, for x25_new. One that is left out in braces, as in {.k = 7, .n2 = 10, .channels = 1}, is off. */
typedef struct {
    uint8_t k;         /* the window of the link, 1 to 7 */
    uint8_t n2;        /* how often a command of the link is sent again, 1 to 255 */
    uint16_t channels; /* logical channels, 1 to 4,095 */
    bool long_data;    /* a call may have up to 128 octets of user data, in place of up to 16; the same at both ends */
    bool say_sizes;    /* each CALL and CALL ACCEPTED says packet sizes and windows, as X.25 over TCP asks for */
    bool wide;         /* packets are read in all the forms that X.25 lets equipment send, and not only as a station writes them */
    uint8_t later;     /* 0: room for settings of later versions, as is `more` */
    uint16_t incoming; /* channels 1 to this number are one-way incoming: a DTE doesn't call on them; the same at both ends */
    uint16_t outgoing; /* so many of the highest are one-way outgoing: a DCE doesn't call on them; the same at both ends */
    uint16_t message;  /* the most octets of a message, for which each call has memory, or 0 for 65,535; the same at both ends */
    uint16_t more;
} x25_settings;

/* The name of a stretch of a channel: the restarts done since link set-up, the clears done since the last of these, and the
   resets done since the last of all these. */
typedef struct {
    uint64_t restarts;
    uint64_t clears;
    uint64_t resets;
} x25_stretch_name;

/* Packet sizes, as powers of 2 from 4 to 12, and windows, 1 to 7, of what the called and what the calling end of a call sends.
   All 0 names none: a call then proposes 128 octets (7) and windows of 2, and an acceptance takes what is proposed. */
typedef struct {
    uint8_t size_called;
    uint8_t size_calling;
    uint8_t window_called;
    uint8_t window_calling;
} x25_sizes;

/* What a station that is wide gives beside a call, its acceptance or its clearing. What is left out in braces, as in
   {.facilities = octets, .facilities_count = 2}, isn't given. */
typedef struct {
    const uint8_t *facilities; /* whole ones, 103 octets at most in all, but no packet sizes or windows: x25_sizes has these */
    size_t facilities_count;
    const uint8_t *user;       /* user data of an acceptance or a clearing, 128 octets at most; x25_call_with takes that of a call */
    size_t user_count;
    bool d;                    /* the D bit of a call or an acceptance */
    uint64_t later;            /* 0: room for what later versions give, as is `more` */
    uint64_t more;
} x25_given;

/* How long each answer may take, in milliseconds; 0 is for ever. For a DCE t20 to t23 are its T10 to T13. */
typedef struct {
    uint32_t t1;  /* what is sent is acknowledged, and a command of the link answered */
    uint32_t t3;  /* an idle link isn't polled */
    uint32_t t20; /* a restart is confirmed */
    uint32_t t21; /* a call is accepted */
    uint32_t t22; /* a reset is confirmed */
    uint32_t t23; /* clearing is confirmed */
    uint32_t t26; /* an interrupt is confirmed */
    uint32_t t25; /* a data packet is acknowledged, while the other end is ready; 0 unless it is set */
} x25_times;

/* An item of an answer: its kind, and what the kinds below have; what one doesn't have is 0. */
typedef struct {
    uint16_t kind;            /* X25_EVENT_FRAME .. */
    uint16_t channel;
    bool q;                   /* the qualifier of a message */
    bool d;                   /* whether confirmation was asked of it */
    uint8_t cause;
    uint8_t diagnostic;
    uint8_t reason;           /* why the link went down: X25_DOWN_RETRIES ..; or which timer passed */
    x25_sizes sizes;
    uint32_t timer;           /* X25_TIMER_OFF .. */
    x25_stretch_name stretch; /* in which a message or an interrupt was sent or came, or a call */
    size_t count;             /* how many octets of a frame or of user data there are */
    size_t confirmed;         /* how many messages more are confirmed */
    uint64_t later;           /* 0: room for what later versions tell, as is `more`; and there may be kinds that aren't below */
    uint64_t more;
} x25_event;

enum {
    X25_DTE = 0,
    X25_DCE = 1
};

/* What becomes of timer T1: a program drops its deadline, sets it anew, or leaves it as it is. */
enum {
    X25_TIMER_OFF = 0,
    X25_TIMER_BEGINS = 1,
    X25_TIMER_GOES_ON = 2
};

/* What is awaited on a channel. */
enum {
    X25_AWAITS_NOTHING = 0,
    X25_AWAITS_ACCEPTANCE = 1,
    X25_AWAITS_RESET_DONE = 2,
    X25_AWAITS_CLEAR_DONE = 3,
    X25_AWAITS_INTERRUPT_DONE = 4
};

/* The kinds of items, and what each has but its kind. docs/FORMATS.md has the entries of the transcript that they are. */
enum {
    X25_EVENT_FRAME = 1,           /* octets to send */
    X25_EVENT_TIMER = 2,           /* timer: the last item of each answer */
    X25_EVENT_LINK_UP = 3,         /* the link came up */
    X25_EVENT_LINK_DOWN = 4,       /* the link went down: reason */
    X25_EVENT_RESTARTED = 5,       /* the other end restarted, so each call ended: cause, diagnostic */
    X25_EVENT_RESTART_DONE = 6,    /* this end's restart is confirmed */
    X25_EVENT_FAULT = 7,           /* an error of procedure of the other end: channel, diagnostic; channel 0 where it is of none */
    X25_EVENT_BESIDE = 8,          /* what the packet of the event before brought beside: channel, facilities, user data */
    X25_EVENT_DIAGNOSTIC = 9,      /* a DIAGNOSTIC came: diagnostic */
    X25_EVENT_INCOMING = 10,       /* the other end calls: channel, stretch, sizes, both addresses, user data */
    X25_EVENT_CONNECTED = 11,      /* the other end accepted: channel, sizes */
    X25_EVENT_COLLIDED = 12,       /* this end's call was dropped for the one that came: channel */
    X25_EVENT_CLEARED = 13,        /* the other end cleared: channel, cause, diagnostic */
    X25_EVENT_CLEAR_DONE = 14,     /* this end's clearing is confirmed: channel */
    X25_EVENT_RESET = 15,          /* the other end reset: channel, cause, diagnostic */
    X25_EVENT_RESET_DONE = 16,     /* this end's reset is confirmed: channel */
    X25_EVENT_MESSAGE = 17,        /* a message came: channel, stretch, q, d, user data */
    X25_EVENT_INTERRUPT = 18,      /* an interrupt came: channel, stretch, user data */
    X25_EVENT_INTERRUPT_DONE = 19, /* this end's interrupt is confirmed: channel */
    X25_EVENT_CONNECT_ASKED = 20,  /* from here on, what this end asked, which is the first event of its answer */
    X25_EVENT_DISCONNECT_ASKED = 21,
    X25_EVENT_RESTART_ASKED = 22,  /* cause, diagnostic */
    X25_EVENT_CALL_ASKED = 23,     /* channel, stretch, sizes, both addresses, user data */
    X25_EVENT_ACCEPT_ASKED = 24,   /* channel, sizes */
    X25_EVENT_CLEAR_ASKED = 25,    /* channel, as those below have too; cause, diagnostic */
    X25_EVENT_SEND_ASKED = 26,     /* stretch, q, d, user data too */
    X25_EVENT_INTERRUPT_ASKED = 27,/* stretch, user data too */
    X25_EVENT_RESET_ASKED = 28,    /* cause, diagnostic too */
    X25_EVENT_READY_ASKED = 29,
    X25_EVENT_NOT_READY_ASKED = 30,
    X25_EVENT_RELINK_ASKED = 31,   /* no channel */
    X25_EVENT_TIMEOUT = 32,        /* a timer passed, the first event of the answer: reason is its number, 1, 3, 25, 26, or 20 to 23, of a
                                      DCE 10 to 13; channel, 0 where it is of none */
    X25_EVENT_CONFIRMED = 33,      /* so many messages more are confirmed, of those of x25_send_asking of this stretch, in their order:
                                      channel, stretch, confirmed */
    X25_EVENT_DISCONNECTED = 34    /* x25_disconnect ended, where the setting wide is set: reason, an X25_ENDING */
};

/* Why the link went down. */
enum {
    X25_DOWN_RETRIES = 1,   /* a command wasn't answered, however often it was sent */
    X25_DOWN_DISC = 2,      /* DISC came */
    X25_DOWN_DM = 3,        /* DM came */
    X25_DOWN_FRMR_SENT = 4, /* FRMR was sent */
    X25_DOWN_FRMR_GOT = 5,  /* FRMR came */
    X25_DOWN_RESET = 6,     /* the other end set it up anew */
    X25_DOWN_LOCAL = 7,     /* this end disconnected, or sets it up anew */
    X25_DOWN_COUNTS = 8     /* a count of restarts, clears or resets is at its most */
};

/* How it ended that this end disconnected the link. */
enum {
    X25_ENDING_UA = 1,      /* UA came */
    X25_ENDING_DM = 2,      /* DM came: the link was down */
    X25_ENDING_GIVEN_UP = 3 /* DISC wasn't answered, however often it was sent */
};

/* Why a call is refused. docs/FORMATS.md says more of each. */
enum {
    X25_LINK_NOT_UP = 9,         /* the link isn't up */
    X25_LINK_FULL = 10,          /* 256 packets wait */
    X25_TIMER_NOT_RUNNING = 11,  /* timer T1 doesn't run */
    X25_SETTING_UP = 12,         /* the link is being set up */
    X25_ENDED = 13,              /* the link was ended */
    X25_BAD_SETTING = 14,        /* a setting is out of its range, or isn't known (x25_new) */
    X25_LINK_UP = 15,            /* the link is up */
    X25_NO_STATION = 16,         /* the x25_station holds no station */
    X25_IN_USE = 17,             /* the x25_station holds one (x25_new) */
    X25_BAD_STATE = 30,          /* the channel isn't in a state in which this may be asked */
    X25_QUEUE_FULL = 31,         /* 8 messages wait on the channel */
    X25_TOO_LONG = 32,           /* a message is too long */
    X25_INTERRUPTING = 33,       /* an interrupt isn't confirmed yet */
    X25_BAD_PARAMETER = 34,      /* a parameter is out of its range */
    X25_RESTARTING = 40,         /* a restart is under way */
    X25_NO_FREE_CHANNEL = 41,    /* no channel is free for a call */
    X25_NO_CHANNEL = 42,         /* the channel isn't configured */
    X25_NO_COMMAND = 60,         /* the text spells no command (x25_command) */
    X25_NO_MEMORY = 70           /* memory was refused; the call may be made again */
};

/* The version of the library, as X25_VERSION. */
uint32_t x25_version(void);
/* The size of an x25_event as the library has it, for a program that isn't compiled with this header. */
size_t x25_event_size(void);
/* Makes a station whose link is down. end: X25_DTE or X25_DCE. 17, 14, 70. */
uint32_t x25_new(x25_station *station, uint8_t end, x25_settings settings);
/* Lets the station go, where there is one. */
void x25_free(x25_station *station);

/* Begins to set the link up. 12, 13, 15. */
uint32_t x25_connect(x25_station *station);
/* Disconnects the link, for good. 13. */
uint32_t x25_disconnect(x25_station *station);
/* Polls the other end of a link that is up, whether timer T1 runs or not: T1 runs then, and the link ends where no poll is
   answered. 9, 13. */
uint32_t x25_probe(x25_station *station);
/* Sets a link that is up up anew: the way out where the other end doesn't confirm a restart. 9, 12, 13. */
uint32_t x25_relink(x25_station *station);
/* Restarts the packet layer: each call ends. A DTE gives 0 as the cause, or one of 129 to 255, a DCE any but those by which a
   station tells of an error of procedure, and either any diagnostic; so it is with x25_clear and x25_reset. 9, 40, 10, 34. */
uint32_t x25_restart(x25_station *station, uint8_t cause, uint8_t diagnostic);
/* Calls the other end on a free channel, which is written to channel, with two addresses of at most 15 digits, as "123", and
   at most 16 octets of user data, or 128 with long_data. 9, 40, 41, 10, 34; channel is then as before. */
uint32_t x25_call(x25_station *station, const char *called, size_t called_count, const char *calling, size_t calling_count,
                  const uint8_t *user, size_t user_count, x25_sizes sizes, uint16_t *channel);
/* The same, with what is given beside, as x25_accept_with and x25_clear_with. Where nothing is given they are as those without it.
   Else 34 too: the station isn't wide, x25_given doesn't let it be given, or it gives user data with a call, or D with a clearing. */
uint32_t x25_call_with(x25_station *station, const char *called, size_t called_count, const char *calling, size_t calling_count,
                       const uint8_t *user, size_t user_count, x25_sizes sizes, x25_given given, uint16_t *channel);
/* Accepts the call that came on a channel, with sizes and windows each from the one proposed to the default.
   9, 40, 42, 10, 30, 34. */
uint32_t x25_accept(x25_station *station, uint16_t channel, x25_sizes sizes);
uint32_t x25_accept_with(x25_station *station, uint16_t channel, x25_sizes sizes, x25_given given);
/* Clears a call, whatever its state. 9, 40, 42, 10, 30, 34. */
uint32_t x25_clear(x25_station *station, uint16_t channel, uint8_t cause, uint8_t diagnostic);
uint32_t x25_clear_with(x25_station *station, uint16_t channel, uint8_t cause, uint8_t diagnostic, x25_given given);
/* Resets a call: messages on the way are lost. 9, 40, 42, 10, 30, 34. */
uint32_t x25_reset(x25_station *station, uint16_t channel, uint8_t cause, uint8_t diagnostic);
/* Sends an interrupt of 1 to 32 octets. 9, 40, 42, 10, 30, 34, 33. */
uint32_t x25_interrupt(x25_station *station, uint16_t channel, const uint8_t *user, size_t user_count);
/* Tells the other end that this one takes data packets, or takes none for now. 9, 40, 42, 10, 30. */
uint32_t x25_ready(x25_station *station, uint16_t channel);
uint32_t x25_not_ready(x25_station *station, uint16_t channel);
/* Hands down what waits in the circuits, as each call does. 9, 40. */
uint32_t x25_pull(x25_station *station);
/* Timer T1 fired. 11. */
uint32_t x25_t1(x25_station *station);
/* The octets of a frame came, as they stand between the flags, frame check sequence included. They are taken, whatever they are. */
uint32_t x25_receive(x25_station *station, const uint8_t *octets, size_t octets_count);
/* Several frames came, one after another: each is received as by x25_receive. octets are those of all, and counts says how many
   each has. How many were taken is written to taken; what is answered to all of these is one answer, and the station is as they
   left it. 34 where the octets of the next aren't there; X25_NO_MEMORY where it is refused for what was answered to those before. */
uint32_t x25_receive_all(x25_station *station, const uint8_t *octets, size_t octets_count, const size_t *counts, size_t counts_count,
                         size_t *taken);
/* Sends a message of at most `message` octets of the settings on a channel, with or without the qualifier. 9, 40, 42, 30, 32, 31. */
uint32_t x25_send(x25_station *station, uint16_t channel, bool q, const uint8_t *user, size_t user_count);
/* The same, and asks that its delivery be confirmed, by D of its last packet: X25_EVENT_CONFIRMED tells that the other end has taken
   it. After a reset, a clearing or a restart nothing is told of messages before. 34 too, where the station isn't wide. */
uint32_t x25_send_asking(x25_station *station, uint16_t channel, bool q, const uint8_t *user, size_t user_count);
/* Does what a text asks, as a line of a script without the name of its end and the line feed: "call 123 4567 41",
   "accept 1", "clear 1", "int 1 2a", "disconnect" .. A cause and a diagnostic are taken of any station: "clear 1 diag=5"; what
   is given by "with 0101 - call 123 4567 41" of one that is wide, and refused by 34 of others. 60, and what the call for it
   answers. */
uint32_t x25_command(x25_station *station, const char *text, size_t text_count);

/* Writes the times of Annex D for an end, which has none for an interrupt of a DCE, and 3 and 60 seconds for T1 and T3. 14. */
uint32_t x25_standard_times(uint8_t end, x25_times *times);
/* Gives the station a clock with these times, in place of the one that it has. From then on the time of each answer begins as it
   is awaited, and of those that are awaited already it begins at once. */
uint32_t x25_set_times(x25_station *station, x25_times times);
/* The time is now, in milliseconds from any beginning, until it is said again; 0 before it is said, and as it is said first the
   time of all that is awaited begins. The first of what is due by the clock is asked for, as the program would ask: T1 fires; no
   answer to an interrupt (T26), or data not acknowledged (T25, diagnostic 146): x25_reset; none to a call or to a reset (T21,
   T22): x25_clear; none to that (T23): x25_restart; none to that (T20), and in place of these three where 256 packets wait:
   x25_relink; an idle link (T3): x25_probe. Its time begins anew, also where it is refused. Where nothing is due nothing is
   answered. 34 for a time before the last one, and what the call asked for answers. */
uint32_t x25_time(x25_station *station, uint64_t now);
/* Whether something is due at some moment, where nothing happens before: then that is written to at, which is else as it was. */
bool x25_next(const x25_station *station, uint64_t *at);

/* How long a program may wait, now, until it says the time: the milliseconds until something is due, where nothing happens before,
   and no more than most. So `poll(files, count, (int)x25_next_timeout(&station, now, 60000))`. */
uint64_t x25_next_timeout(const x25_station *station, uint64_t now, uint64_t most);

/* Takes item i of the last answer, from 0 on: its frames, its events, each in order, and then what becomes of timer T1. What it
   is is written to event, and its octets are copied to the front of room where they fit; event->count tells how many they are
   in any case. False after the last item: event and room are then as before.

       for (size_t i = 0; x25_take(&station, i, &event, room, sizeof room); i++)
           switch (event.kind) .. */
bool x25_take(const x25_station *station, size_t i, x25_event *event, uint8_t *room, size_t size);
/* Takes items from first on, as x25_take does, as many as there are or as fit: each is written to the next of events, of which
   there is room for most, and its octets to room, after those of the items before. How many were taken is answered. */
size_t x25_take_all(const x25_station *station, size_t first, x25_event *events, size_t most, uint8_t *room, size_t size);
/* What else item i has: the address that is called and the one that calls, 0 to 15 digits as "0" to "9", and the facilities that
   came beside, at most 109 octets. Each is copied to the front of text or room where it fits; its length is answered in any case,
   0 where there is none. */
size_t x25_called(const x25_station *station, size_t i, char *text, size_t size);
size_t x25_calling(const x25_station *station, size_t i, char *text, size_t size);
size_t x25_facilities(const x25_station *station, size_t i, uint8_t *room, size_t size);

/* The same answer by its parts, the events as text. x25_frame and x25_entry copy number i, from 0 on, to the front of room or
   text where it fits, and tell its length in any case, 0 where there is none. An entry is a line of the transcript with its line
   feed, of at most 131,200 octets. X25_NO_MEMORY of x25_entry leaves text and count as they were. */
size_t x25_frames(const x25_station *station);
size_t x25_frame(const x25_station *station, size_t i, uint8_t *room, size_t size);
size_t x25_entries(const x25_station *station);
uint32_t x25_entry(const x25_station *station, size_t i, char *text, size_t size, size_t *count);
/* What became of timer T1 at the last call. */
uint32_t x25_timer(const x25_station *station);

/* Whether the link is up, and all that was asked was sent and acknowledged. */
bool x25_idle(const x25_station *station);
/* How many messages more x25_send takes on a channel: 8 less those that wait, and 0 where it is refused. */
size_t x25_room(const x25_station *station, uint16_t channel);
/* How many messages of x25_send_asking aren't confirmed yet on a channel, at most 15. */
size_t x25_unconfirmed(const x25_station *station, uint16_t channel);
/* What this end awaits on a channel: X25_AWAITS_NOTHING .. */
uint32_t x25_awaits(const x25_station *station, uint16_t channel);
/* On how many channels there is a call: one is up, or this end awaits an answer there. A call that came and that this end has
   neither accepted nor cleared isn't counted. */
size_t x25_open_calls(const x25_station *station);
/* Whether a restart is under way: this end awaits that it be confirmed. */
bool x25_is_restarting(const x25_station *station);
/* Whether a stretch is open on a channel: a call is up there, and no reset is under way. Then its name is written, which else is
   as it was. */
bool x25_stretch(const x25_station *station, uint16_t channel, x25_stretch_name *name);
/* What the number of a refusal says, copied as x25_called copies, into memory of the program: at most 64 octets, without a zero
   after them; none where no call answers that number. */
size_t x25_refusal_text(uint32_t number, char *text, size_t size);

#ifdef __cplusplus
}
#endif

#endif
