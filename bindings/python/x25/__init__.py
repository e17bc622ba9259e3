"""Stations of X.25 in Python, over the library for C, `libx25.so`.

>>> dte, dce = Station(DTE), Station(DCE)
>>> answer = dte.connect()
>>> answer.frames[0].hex(), answer.events[0].kind, answer.timer
('013febdf', <Kind.CONNECT_ASKED: 20>, <Timer.BEGINS: 1>)
>>> def talk(answer, near, far):  # a line that loses nothing, until nothing is on it
...     events = answer.events
...     while answer.frames:
...         answer, near, far = far.receive_all(answer.frames), far, near
...         events += answer.events
...     return events
>>> _ = talk(answer, dte, dce)
>>> answer = dte.call("123", "4567", b"A")
>>> channel = answer.channel
>>> coming = talk(answer, dte, dce)[-1]
>>> coming.kind, coming.channel, coming.sizes, coming.called, coming.calling, coming.user
(<Kind.INCOMING: 10>, 1, Sizes(7, 7, 2, 2), '123', '4567', b'A')
>>> _ = talk(dce.accept(channel), dce, dte)
>>> talk(dte.send(channel, b"hello"), dte, dce)[-1]
Event(kind=<Kind.MESSAGE: 17>, channel=1, stretch=(1, 0, 0), user=b'hello')
>>> dte.is_idle, dte.timer, dte.stretch(channel)
(True, <Timer.OFF: 0>, (1, 0, 0))
>>> dce.receive(bytes(4)).events  # octets that are no frame
[]
>>> dte.connect()
Traceback (most recent call last):
x25.Refused: 15: the link is up

A station may be used by any thread: one call, with all of its answer, is done after another. What
runs in the midst of a call of the same thread, as a signal handler, a `__del__` or a trace
function does, gets `Busy` of this station. It is let go of by `close`, at the end of a `with`
block, or with its last name.
"""

from __future__ import annotations

import ctypes
import dataclasses
import enum
import functools
import os
import struct
import threading
from typing import Any, Callable, Iterable, NamedTuple, TypeVar, Union

DTE, DCE = 0, 1
VERSION = 100  # X25_VERSION of the `x25.h` that this package was written by

Octets = Union[bytes, bytearray, memoryview]
_Result = TypeVar("_Result")


class Timer(enum.IntEnum):
    """What becomes of timer T1: a program drops its deadline, sets it anew, or leaves it as it
    is."""

    OFF = 0
    BEGINS = 1
    GOES_ON = 2


class Kind(enum.IntEnum):
    """What an event tells, as `x25.h` has it; from CONNECT_ASKED to RELINK_ASKED, what this end
    asked. OTHER is of a kind that isn't known here."""

    OTHER = 0
    LINK_UP = 3
    LINK_DOWN = 4
    RESTARTED = 5
    RESTART_DONE = 6
    FAULT = 7
    BESIDE = 8
    DIAGNOSTIC = 9
    INCOMING = 10
    CONNECTED = 11
    COLLIDED = 12
    CLEARED = 13
    CLEAR_DONE = 14
    RESET = 15
    RESET_DONE = 16
    MESSAGE = 17
    INTERRUPT = 18
    INTERRUPT_DONE = 19
    CONNECT_ASKED = 20
    DISCONNECT_ASKED = 21
    RESTART_ASKED = 22
    CALL_ASKED = 23
    ACCEPT_ASKED = 24
    CLEAR_ASKED = 25
    SEND_ASKED = 26
    INTERRUPT_ASKED = 27
    RESET_ASKED = 28
    READY_ASKED = 29
    NOT_READY_ASKED = 30
    RELINK_ASKED = 31
    TIMEOUT = 32
    CONFIRMED = 33
    DISCONNECTED = 34


class Down(enum.IntEnum):
    """Why the link went down, as `x25.h` has it."""

    RETRIES = 1
    DISC = 2
    DM = 3
    FRMR_SENT = 4
    FRMR_GOT = 5
    RESET = 6
    LOCAL = 7
    COUNTS = 8


class Ending(enum.IntEnum):
    """How it ended that this end disconnected the link, as `x25.h` has it."""

    UA = 1
    DM = 2
    GIVEN_UP = 3


class Awaits(enum.IntEnum):
    """What is awaited on a channel, as `x25.h` has it."""

    NOTHING = 0
    ACCEPTANCE = 1
    RESET_DONE = 2
    CLEAR_DONE = 3
    INTERRUPT_DONE = 4


class Times(NamedTuple):
    """How long each answer may take, in milliseconds, 0 for ever, as `x25.h` has it; of a DCE
    `t20` to `t23` are its T10 to T13."""

    t1: int
    t3: int
    t20: int
    t21: int
    t22: int
    t23: int
    t26: int
    t25: int = 0


class Sizes(NamedTuple):
    """Packet sizes, as powers of 2 from 4 to 12, and windows, 1 to 7, of what the called and what
    the calling end of a call sends."""

    size_called: int
    size_calling: int
    window_called: int
    window_calling: int

    def __repr__(self) -> str:
        return f"Sizes{tuple(self)}"


@dataclasses.dataclass(frozen=True, repr=False)
class Event:
    """What a station tells, and what its kind has of these: `x25.h` lists that. A stretch is the
    restarts, clears and resets that name it; `timeout` is the number of the timer that passed,
    `confirmed` how many messages more are confirmed."""

    kind: Kind
    channel: int = 0
    stretch: tuple[int, int, int] | None = None
    q: bool = False
    d: bool = False
    cause: int = 0
    diagnostic: int = 0
    reason: Down | Ending | None = None
    sizes: Sizes | None = None
    called: str = ""
    calling: str = ""
    facilities: bytes = b""
    user: bytes = b""
    timeout: int = 0
    confirmed: int = 0

    def __repr__(self) -> str:
        values = ((field, getattr(self, field.name)) for field in dataclasses.fields(self))
        told = (f"{field.name}={value!r}" for field, value in values if value != field.default)
        return f"Event({', '.join(told)})"


class Answer(NamedTuple):
    """What a station answers to a call: frames to send, events, and what becomes of timer T1."""

    frames: list[bytes]
    events: list[Event]
    timer: Timer

    @property
    def channel(self) -> int:
        """The channel that `call` chose."""
        return next(event.channel for event in self.events if event.kind is Kind.CALL_ASKED)


class Refused(Exception):
    """A call was refused, and the station is as before; `number` and `text` say why. Of
    `receive_all`, `taken` counts the frames before, and `answer` is what was answered to these."""

    def __init__(
        self, number: int, text: str, taken: int = 0, answer: Answer | None = None
    ) -> None:
        super().__init__(number, text, taken, answer)
        self.number, self.text, self.taken = number, text, taken
        self.answer = answer or Answer([], [], Timer.GOES_ON)

    def __str__(self) -> str:
        return f"{self.number}: {self.text}"


class Busy(RuntimeError):
    """A call was made in the midst of another one of the same thread, by a signal handler, a
    `__del__` or a trace function. It did nothing, and the other one goes on."""


class _Slot(ctypes.Structure):
    _fields_ = [("at", ctypes.c_void_p), ("is_open", ctypes.c_bool)]


class _Settings(ctypes.Structure):
    _fields_ = [
        *((name, ctypes.c_uint8) for name in ("k", "n2")),
        ("channels", ctypes.c_uint16),
        *((name, ctypes.c_bool) for name in ("long_data", "say_sizes", "wide")),
        ("later", ctypes.c_uint8),
        ("incoming", ctypes.c_uint16),
        ("outgoing", ctypes.c_uint16),
        ("message", ctypes.c_uint16),
        ("more", ctypes.c_uint16),
    ]


class _StretchName(ctypes.Structure):
    _fields_ = [
        ("restarts", ctypes.c_uint64), ("clears", ctypes.c_uint64), ("resets", ctypes.c_uint64)
    ]


class _Sizes(ctypes.Structure):
    _fields_ = [(name, ctypes.c_uint8) for name in Sizes._fields]


class _Given(ctypes.Structure):
    _fields_ = [
        ("facilities", ctypes.c_char_p),
        ("facilities_count", ctypes.c_size_t),
        ("user", ctypes.c_char_p),
        ("user_count", ctypes.c_size_t),
        ("d", ctypes.c_bool),
        ("later", ctypes.c_uint64),
        ("more", ctypes.c_uint64),
    ]


class _Times(ctypes.Structure):
    _fields_ = [(name, ctypes.c_uint32) for name in Times._fields]


_STATION, _ROOM, _SIZE = ctypes.c_void_p, ctypes.c_void_p, ctypes.c_size_t
_OCTETS, _REASON = [ctypes.c_char_p, _SIZE], [ctypes.c_uint8, ctypes.c_uint8]
_AT = [_STATION, _SIZE, _ROOM, _SIZE]
# The functions of x25.h: parameters and result. Those of None are called for each frame, and are
# handed what was converted before.
_FUNCTIONS: dict[str, tuple[Any, Any]] = {
    "version": ([], ctypes.c_uint32),
    "event_size": ([], _SIZE),
    "new": ([_STATION, ctypes.c_uint8, _Settings], ctypes.c_uint32),
    "free": ([_STATION], None),
    "connect": ([_STATION], ctypes.c_uint32),
    "disconnect": ([_STATION], ctypes.c_uint32),
    "probe": ([_STATION], ctypes.c_uint32),
    "relink": ([_STATION], ctypes.c_uint32),
    "restart": ([_STATION, *_REASON], ctypes.c_uint32),
    "call": ([_STATION, *_OCTETS * 3, _Sizes, ctypes.POINTER(ctypes.c_uint16)], ctypes.c_uint32),
    "call_with": (
        [_STATION, *_OCTETS * 3, _Sizes, _Given, ctypes.POINTER(ctypes.c_uint16)], ctypes.c_uint32
    ),
    "accept": ([_STATION, ctypes.c_uint16, _Sizes], ctypes.c_uint32),
    "accept_with": ([_STATION, ctypes.c_uint16, _Sizes, _Given], ctypes.c_uint32),
    "clear": ([_STATION, ctypes.c_uint16, *_REASON], ctypes.c_uint32),
    "clear_with": ([_STATION, ctypes.c_uint16, *_REASON, _Given], ctypes.c_uint32),
    "reset": ([_STATION, ctypes.c_uint16, *_REASON], ctypes.c_uint32),
    "interrupt": ([_STATION, ctypes.c_uint16, *_OCTETS], ctypes.c_uint32),
    "ready": ([_STATION, ctypes.c_uint16], ctypes.c_uint32),
    "not_ready": ([_STATION, ctypes.c_uint16], ctypes.c_uint32),
    "pull": ([_STATION], ctypes.c_uint32),
    "t1": ([_STATION], ctypes.c_uint32),
    "receive": ([_STATION, *_OCTETS], ctypes.c_uint32),
    "receive_all": (None, ctypes.c_uint32),
    "send": ([_STATION, ctypes.c_uint16, ctypes.c_bool, *_OCTETS], ctypes.c_uint32),
    "send_asking": ([_STATION, ctypes.c_uint16, ctypes.c_bool, *_OCTETS], ctypes.c_uint32),
    "command": ([_STATION, *_OCTETS], ctypes.c_uint32),
    "standard_times": ([ctypes.c_uint8, ctypes.POINTER(_Times)], ctypes.c_uint32),
    "set_times": ([_STATION, _Times], ctypes.c_uint32),
    "time": ([_STATION, ctypes.c_uint64], ctypes.c_uint32),
    "next": ([_STATION, ctypes.POINTER(ctypes.c_uint64)], ctypes.c_bool),
    "next_timeout": ([_STATION, ctypes.c_uint64, ctypes.c_uint64], ctypes.c_uint64),
    "take": ([_STATION, _SIZE, ctypes.c_void_p, _ROOM, _SIZE], ctypes.c_bool),
    "take_all": (None, _SIZE),
    "called": (_AT, _SIZE),
    "calling": (_AT, _SIZE),
    "facilities": (_AT, _SIZE),
    "frames": ([_STATION], _SIZE),
    "frame": (_AT, _SIZE),
    "entries": ([_STATION], _SIZE),
    "entry": ([*_AT, ctypes.POINTER(_SIZE)], ctypes.c_uint32),
    "timer": ([_STATION], ctypes.c_uint32),
    "idle": ([_STATION], ctypes.c_bool),
    "room": ([_STATION, ctypes.c_uint16], _SIZE),
    "unconfirmed": ([_STATION, ctypes.c_uint16], _SIZE),
    "awaits": ([_STATION, ctypes.c_uint16], ctypes.c_uint32),
    "open_calls": ([_STATION], _SIZE),
    "is_restarting": ([_STATION], ctypes.c_bool),
    "stretch": ([_STATION, ctypes.c_uint16, ctypes.POINTER(_StretchName)], ctypes.c_bool),
    "refusal_text": ([ctypes.c_uint32, _ROOM, _SIZE], _SIZE),
}
_FRAME, _TIMER = 1, 2
_ROOM_SIZE, _ITEMS, _PART = 1 << 18, 64, 128
# An x25_event: kind, channel, q, d, cause, diagnostic, reason, sizes, timer, stretch, count,
# confirmed, room for later ones; and its kind, timer and count alone.
_ITEM, _HEAD = struct.Struct("@HH??BBB4BI3QNN16x"), struct.Struct("@H14xI28xN24x")
_ITEM_SIZE = _ITEM.size
_size = functools.lru_cache(maxsize=1024)(_SIZE.from_param)
_MOST, _SPACE = _size(_ITEMS), _size(_ROOM_SIZE)
_TIMERS, _new = tuple(Timer), tuple.__new__
_BESIDE, _TIMEOUT = Kind.BESIDE, Kind.TIMEOUT
_REASONS: dict[Kind, type[Down] | type[Ending]] = {Kind.LINK_DOWN: Down, Kind.DISCONNECTED: Ending}
_WITH_ADDRESSES = {Kind.INCOMING, Kind.CALL_ASKED}
_WITH_SIZES = {*_WITH_ADDRESSES, Kind.CONNECTED, Kind.ACCEPT_ASKED}
_WITH_STRETCH = {
    *_WITH_ADDRESSES,
    Kind.MESSAGE,
    Kind.SEND_ASKED,
    Kind.INTERRUPT,
    Kind.INTERRUPT_ASKED,
    Kind.CONFIRMED,
}
# Each kind by its number, and which of these it has.
_KINDS = {
    kind.value: (kind, kind in _WITH_ADDRESSES, kind in _WITH_SIZES, kind in _WITH_STRETCH)
    for kind in Kind
}
_OTHER = _KINDS[Kind.OTHER.value]

_loaded: dict[str, ctypes.PyDLL] = {}


def library_path() -> str:
    """Where the library is: in the folder that the variable X25_LIBRARY names, beside this file,
    where `make lib` leaves it, or among those that the system knows."""
    here = os.path.dirname(os.path.abspath(__file__))
    named = os.environ.get("X25_LIBRARY")
    folders = [named] if named else [here, os.path.join(here, "..", "..", "..", "build")]
    places = [os.path.join(folder, "libx25.so") for folder in folders]
    return next(
        (path for path in places if os.path.exists(path)), places[0] if named else "libx25.so"
    )


def load(path: str | None = None) -> ctypes.PyDLL:
    """The library at a path, or where `library_path` says."""
    path = path or library_path()
    if path not in _loaded:
        try:
            library = ctypes.PyDLL(path)
        except OSError as error:
            raise OSError(
                f"{error} (`make lib` leaves libx25.so in build, and the variable X25_LIBRARY "
                "names another folder)"
            ) from None
        version = library.x25_version() if hasattr(library, "x25_version") else 0
        if version != VERSION:
            raise OSError(
                f"{path} is of version {version}, and this package of {VERSION}, as x25.h counts"
            )
        size = library.x25_event_size() if hasattr(library, "x25_event_size") else 0
        if size != _ITEM_SIZE:
            raise OSError(
                f"an event of {path} has {size} octets, and one of this package {_ITEM_SIZE}"
            )
        for name, (parameters, result) in _FUNCTIONS.items():
            function = getattr(library, f"x25_{name}")
            function.argtypes, function.restype = parameters, result
        _loaded[path] = library
    return _loaded[path]


class Station:
    """A station, DTE or DCE: window k, n2 tries of a command, 1 to 4,095 channels, whether a call
    may have 128 octets of user data, whether calls and acceptances say packet sizes and windows,
    as X.25 over TCP asks for, and whether packets are read in all the forms that X.25 lets
    equipment send. Of its channels the first `incoming` are one-way incoming, on which a DTE
    doesn't call, and the last `outgoing` one-way outgoing, on which a DCE doesn't. A message has
    at most `message` octets, of which 0 stands for 65,535, and each call has memory for so
    many."""

    def __init__(
        self,
        end: int,
        k: int = 7,
        n2: int = 10,
        channels: int = 1,
        long_data: bool = False,
        say_sizes: bool = False,
        wide: bool = False,
        library: str | None = None,
        incoming: int = 0,
        outgoing: int = 0,
        message: int = 65535,
    ) -> None:
        # It is held from a call to the end of its answer. A plain lock would have a signal handler
        # wait for ever for the call that it is in, so the same thread may take it again, and is
        # then told by the flag.
        self._lock, self._is_in_call = threading.RLock(), False
        self._library, self._held, self._taken = load(library), _Slot(), ctypes.c_size_t()
        self._items: Any = ctypes.create_string_buffer(_ITEMS * _ITEM_SIZE)
        self._buffer: Any = ctypes.create_string_buffer(_ROOM_SIZE)
        self._slot, self._taken_at, self._items_at, self._room = map(
            ctypes.byref, (self._held, self._taken, self._items, self._buffer)
        )
        self._receive_all, self._take_all = (
            self._library.x25_receive_all, self._library.x25_take_all
        )
        self._take_first = functools.partial(
            self._take_all, self._slot, _size(0), self._items_at, _MOST, self._room, _SPACE
        )
        self._end = end
        fit = (
            all(0 <= setting < 256 for setting in (end, k, n2))
            and all(0 <= count < 65536 for count in (channels, incoming, outgoing))
        )
        self._check(0 if fit and 0 <= message < 65536 else 14)
        settings = _Settings(
            k, n2, channels, long_data, say_sizes, wide, 0, incoming, outgoing, message
        )
        self._check(self._library.x25_new(self._slot, end, settings))

    def __enter__(self) -> Station:
        return self

    def __exit__(self, *_: object) -> None:
        self.close()

    def __del__(self) -> None:
        if hasattr(self, "_slot"):
            self.close()

    def __reduce__(self) -> str:
        raise TypeError("a station is neither copied nor pickled")

    def close(self) -> None:
        """Lets the station go; each call is refused with 16 from then on."""
        self._alone(self._library.x25_free, self._slot)

    def connect(self) -> Answer:
        """Begins to set the link up."""
        return self._call(self._library.x25_connect)

    def disconnect(self) -> Answer:
        """Disconnects the link, for good."""
        return self._call(self._library.x25_disconnect)

    def probe(self) -> Answer:
        """Polls the other end of a link that is up, whether timer T1 runs or not. 9, 13."""
        return self._call(self._library.x25_probe)

    def relink(self) -> Answer:
        """Sets a link that is up up anew. 9, 12, 13."""
        return self._call(self._library.x25_relink)

    def restart(self, cause: int = 0, diagnostic: int = 0) -> Answer:
        """Restarts the packet layer: each call ends. A DTE gives 0 as the cause, or one of 129 to
        255, a DCE any but those of an error of procedure, and either any diagnostic."""
        return self._call(self._library.x25_restart, *self._reason(cause, diagnostic))

    def call(
        self,
        called: str,
        calling: str,
        user: Octets = b"",
        sizes: Sizes | None = None,
        *,
        facilities: Octets = b"",
        d: bool = False,
    ) -> Answer:
        """Calls the other end, from one address to another, each of at most 15 digits; `channel`
        of the answer is that of the call. One that is wide may give facilities, and the D bit."""
        words = [
            word for text in (called.encode(), calling.encode(), user) for word in _counted(text)
        ]
        return self._call(
            self._library.x25_call_with,
            *words,
            _sizes(sizes),
            _given(facilities, b"", d),
            ctypes.c_uint16(),
        )

    def accept(
        self,
        channel: int,
        sizes: Sizes | None = None,
        *,
        facilities: Octets = b"",
        user: Octets = b"",
        d: bool = False,
    ) -> Answer:
        """Accepts the call that came on a channel. One that is wide may give facilities, user data
        and the D bit."""
        return self._on(
            self._library.x25_accept_with, channel, _sizes(sizes), _given(facilities, user, d)
        )

    def clear(
        self,
        channel: int,
        cause: int = 0,
        diagnostic: int = 0,
        *,
        facilities: Octets = b"",
        user: Octets = b"",
    ) -> Answer:
        """Clears a call, whatever its state, with a cause and a diagnostic, as `restart`. One that
        is wide may give facilities and user data."""
        return self._on(
            self._library.x25_clear_with,
            channel,
            *self._reason(cause, diagnostic),
            _given(facilities, user, False),
        )

    def reset(self, channel: int, cause: int = 0, diagnostic: int = 0) -> Answer:
        """Resets a call, as `clear` clears it: messages on the way are lost."""
        return self._on(self._library.x25_reset, channel, *self._reason(cause, diagnostic))

    def interrupt(self, channel: int, user: Octets) -> Answer:
        """Sends an interrupt of 1 to 32 octets."""
        return self._on(self._library.x25_interrupt, channel, *_counted(user))

    def ready(self, channel: int) -> Answer:
        """Tells the other end that this one takes data packets."""
        return self._on(self._library.x25_ready, channel)

    def not_ready(self, channel: int) -> Answer:
        """Tells the other end that this one takes no data packets for now."""
        return self._on(self._library.x25_not_ready, channel)

    def pull(self) -> Answer:
        """Hands down what waits in the circuits, as each call does."""
        return self._call(self._library.x25_pull)

    def t1(self) -> Answer:
        """Timer T1 fired."""
        return self._call(self._library.x25_t1)

    def receive(self, octets: Octets) -> Answer:
        """The octets of a frame came, frame check sequence included."""
        return self._call(self._library.x25_receive, *_counted(octets))

    def receive_all(self, frames: Iterable[Octets]) -> Answer:
        """Several frames came, one after another; what is answered to all of them. It ends at one
        that is refused, and the error has what was answered up to there."""
        return self._alone(
            self._take_frames,
            [frame if type(frame) is bytes else _octets(frame) for frame in frames],
        )

    def _take_frames(self, frames: list[bytes]) -> Answer:
        octets, counts = b"".join(frames), _packer(len(frames))(*map(len, frames))
        number = self._receive_all(
            self._slot, octets, _size(len(octets)), counts, _size(len(frames)), self._taken_at
        )
        if number:
            raise Refused(number, self._text(number), self._taken.value, self._answer())
        return self._answer()

    def send(self, channel: int, user: Octets, q: bool = False, confirm: bool = False) -> Answer:
        """Sends a message that isn't too long, with or without the qualifier. One that is wide may
        ask that its delivery be confirmed: CONFIRMED tells that the other end has taken it."""
        send = self._library.x25_send_asking if confirm else self._library.x25_send
        return self._on(send, channel, q, *_counted(user))

    def command(self, text: str) -> Answer:
        """Does what a text asks, as a line of a script without the name of its end: `call 123 4567
        41`, `accept 1`."""
        return self._call(self._library.x25_command, *_counted(text.encode()))

    def standard_times(self) -> Times:
        """The times of Annex D for the end of this station, and 3 and 60 seconds for T1 and T3."""
        words = _Times()
        self._check(self._library.x25_standard_times(self._end, words))
        return Times(*(getattr(words, name) for name in Times._fields))

    def set_times(self, times: Times | None = None) -> None:
        """Gives the station a clock with these times, or with the standard ones, in place of the
        one that it has."""
        times = times or self.standard_times()
        self._check(0 if all(0 <= time < 1 << 32 for time in times) else 14)
        self._check(self._alone(self._library.x25_set_times, self._slot, _Times(*times)))

    def time(self, now: int) -> Answer:
        """The time is now, in milliseconds; the first of what is due by the clock is asked for. 34
        for a time before the last one."""
        self._check(0 if 0 <= now < 1 << 64 else 34)
        return self._call(self._library.x25_time, now)

    def next(self) -> int | None:
        """When something is due, where nothing happens before; None for never."""
        at = ctypes.c_uint64()
        return at.value if self._alone(self._library.x25_next, self._slot, at) else None

    def next_timeout(self, now: int, most: int) -> int:
        """How long a program may wait until it says the time: the milliseconds until something is
        due, and no more than `most`."""
        bounds = (max(0, min(number, (1 << 64) - 1)) for number in (now, most))
        return int(self._alone(self._library.x25_next_timeout, self._slot, *bounds))

    def lines(self) -> list[str]:
        """The events of the last answer as lines of the transcript, each with its line feed.
        Refused with 70 where memory is refused, and may be asked again."""
        return self._alone(self._lines)

    def _lines(self) -> list[str]:
        count, lines = ctypes.c_size_t(), []
        for i in range(self._library.x25_entries(self._slot)):
            self._check(self._library.x25_entry(self._slot, i, self._room, _ROOM_SIZE, count))
            lines.append(bytes(self._buffer[: count.value]).decode())
        return lines

    @property
    def timer(self) -> Timer:
        """What became of timer T1 at the last call."""
        return Timer(self._alone(self._library.x25_timer, self._slot))

    @property
    def is_idle(self) -> bool:
        """Whether the link is up, and all that was asked was sent and acknowledged."""
        return bool(self._alone(self._library.x25_idle, self._slot))

    def room(self, channel: int) -> int:
        """How many messages more `send` takes on a channel: 8 less those that wait, and 0 where it
        is refused."""
        return int(self._alone(self._library.x25_room, self._slot, _channel(channel)))

    def unconfirmed(self, channel: int) -> int:
        """How many messages that asked for it aren't confirmed yet on a channel."""
        return int(self._alone(self._library.x25_unconfirmed, self._slot, _channel(channel)))

    def awaits(self, channel: int) -> Awaits:
        """What this end awaits on a channel."""
        return Awaits(self._alone(self._library.x25_awaits, self._slot, _channel(channel)))

    @property
    def open_calls(self) -> int:
        """On how many channels a call is up, or this end awaits an answer."""
        return int(self._alone(self._library.x25_open_calls, self._slot))

    @property
    def is_restarting(self) -> bool:
        """Whether this end awaits that a restart be confirmed."""
        return bool(self._alone(self._library.x25_is_restarting, self._slot))

    def stretch(self, channel: int) -> tuple[int, int, int] | None:
        """The stretch that is open on a channel, as `Event.stretch` has it; None where none is."""
        name = _StretchName()
        is_open = self._alone(self._library.x25_stretch, self._slot, _channel(channel), name)
        return (name.restarts, name.clears, name.resets) if is_open else None

    def _alone(self, make: Callable[..., _Result], *words: Any) -> _Result:
        """Does something with the station while nothing else does, neither another thread nor what
        comes into the midst of it."""
        with self._lock:
            if self._is_in_call:
                raise Busy("a call of this station is under way")
            self._is_in_call = True
            try:
                return make(*words)
            finally:
                self._is_in_call = False

    def _text(self, number: int) -> str:
        text = ctypes.create_string_buffer(_PART)
        count = self._library.x25_refusal_text(number, text, _PART)
        return text.raw[:count].decode()

    def _check(self, number: int) -> None:
        if number:
            raise Refused(number, self._text(number))

    def _reason(self, cause: int, diagnostic: int) -> tuple[int, int]:
        """A cause and a diagnostic, which have to be octets."""
        self._check(0 if 0 <= cause < 256 and 0 <= diagnostic < 256 else 34)
        return cause, diagnostic

    def _on(self, function: Callable[..., int], channel: int, *words: Any) -> Answer:
        """Makes a call that names a channel; one that no number of 16 bits names isn't
        configured."""
        self._check(0 if 0 <= channel < 65536 else 42)
        return self._call(function, channel, *words)

    def _call(self, function: Callable[..., int], *words: Any) -> Answer:
        """Makes a call and takes its answer."""
        return self._alone(self._ask, function, *words)

    def _ask(self, function: Callable[..., int], *words: Any) -> Answer:
        self._check(function(self._slot, *words))
        return self._answer()

    def _answer(self) -> Answer:
        """Takes the last answer, of which the timer is the last item."""
        frames: list[bytes] = []
        events: list[Event] = []
        first, count, room = 0, self._take_first(), self._buffer
        while count:
            items, at = self._items[: count * _ITEM_SIZE], 0
            for kind, timer, length in _HEAD.iter_unpack(items):
                if kind == _FRAME:
                    frames.append(room[at : at + length])
                elif kind == _TIMER:
                    return _new(Answer, (frames, events, _TIMERS[timer]))
                else:
                    i = len(frames) + len(events)
                    events.append(
                        self._event(
                            i,
                            _ITEM.unpack_from(items, (i - first) * _ITEM_SIZE),
                            room[at : at + length],
                        )
                    )
                at += length
            first += count
            count = self._take_all(
                self._slot, _size(first), self._items_at, _MOST, self._room, _SPACE
            )
        return Answer(frames, events, Timer.GOES_ON)  # the station was closed

    def _event(self, i: int, item: tuple[Any, ...], user: bytes) -> Event:
        """The event that stands in a place of the answer."""
        kind, has_addresses, has_sizes, has_stretch = _KINDS.get(item[0], _OTHER)
        event = object.__new__(Event)  # its own __init__, frozen, would take longer than the call
        event.__dict__.update(
            kind=kind,
            channel=item[1],
            stretch=item[12:15] if has_stretch else None,
            q=item[2],
            d=item[3],
            cause=item[4],
            diagnostic=item[5],
            reason=_REASONS[kind](item[6]) if kind in _REASONS else None,
            sizes=Sizes(*item[7:11]) if has_sizes else None,
            called=self._part(self._library.x25_called, i).decode() if has_addresses else "",
            calling=self._part(self._library.x25_calling, i).decode() if has_addresses else "",
            facilities=self._part(self._library.x25_facilities, i) if kind is _BESIDE else b"",
            user=user,
            timeout=item[6] if kind is _TIMEOUT else 0,
            confirmed=item[16],
        )
        return event

    def _part(self, read: Callable[..., int], i: int) -> bytes:
        # the room has the octets of items that are still to be read
        text = ctypes.create_string_buffer(_PART)
        count = read(self._slot, i, text, _PART)
        return text.raw[:count]


@functools.lru_cache(maxsize=64)
def _packer(count: int) -> Callable[..., bytes]:
    """What packs so many counts of octets."""
    return struct.Struct(f"@{count}N").pack


def _octets(given: Octets) -> bytes:
    """What is given, by any object that holds octets, as C is handed it."""
    return given if type(given) is bytes else bytes(memoryview(given))


def _counted(given: Octets) -> tuple[bytes, int]:
    """The octets, and how many they are."""
    octets = _octets(given)
    return octets, len(octets)


def _channel(number: int) -> int:
    """A channel, as far as a number of 16 bits names it, and else 0, which is never one."""
    return number if 0 <= number < 65536 else 0


def _given(facilities: Octets, user: Octets, d: bool) -> _Given:
    """What is given as C has it; without any of it the call is as the one without."""
    return _Given(*_counted(facilities), *_counted(user), d)


def _sizes(sizes: Sizes | None) -> _Sizes:
    """Sizes and windows as C has them, all 0 for none; one of no octet is out of range."""
    given = sizes or (0, 0, 0, 0)
    return _Sizes(*(value if 0 <= value < 256 else 255 for value in given))
