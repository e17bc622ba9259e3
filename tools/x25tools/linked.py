"""A station of the library for C, `libx25.so`, with a clock: asked event by event, as the one
behind a pipe (`piped.py`), in this process."""

from __future__ import annotations

import os
import sys
from typing import Any, Callable, Mapping

from x25tools import x25lines
from x25tools.piped import Answer
from x25tools.x25lines import BadInput, FrameLine

# The binding stands beside this package where it is installed, and else in bindings/.
TOOLS = os.path.dirname(os.path.dirname(os.path.abspath(__file__)))
sys.path.append(os.path.join(os.path.dirname(TOOLS), "bindings", "python"))
import x25  # noqa: E402

ENDS = {"dte": (x25.DTE, ">"), "dce": (x25.DCE, "<")}


class Station:
    """The station of an end, by the library at a path. Of its times, in milliseconds, those that
    aren't given are the standard's. `first` is what it says before anything is asked."""

    def __init__(
        self, path: str, end: str, times: Mapping[str, int | None], **settings: Any
    ) -> None:
        self._path, self._end, self._settings = path, end, settings
        self._times = {name: time for name, time in times.items() if time is not None}
        self._station: x25.Station | None = None

    def __enter__(self) -> Station:
        self.begin()
        return self

    def __exit__(self, *_: object) -> None:
        if self._station is not None:
            self._station.close()

    def begin(self) -> None:
        """Begins the station, in place of one that ran."""
        self.__exit__()
        try:
            self._station = x25.Station(ENDS[self._end][0], library=self._path, **self._settings)
        except OSError as error:
            raise BadInput(str(error)) from error
        self._station.set_times(self._station.standard_times()._replace(**self._times))
        self._said: int | None = None
        # The channels on which something is awaited: nothing begins to be but with an event of the
        # channel.
        self._awaited: set[int] = set()
        self.first = self._told([], [], None)

    def _held(self) -> x25.Station:
        assert self._station
        return self._station

    def ask(self, event: str, now: int | None = None) -> Answer:
        """The answer to an event, a line without its line feed, at a time in milliseconds at which
        nothing is due; or to `@` and a time, at which all that is due is asked for."""
        if event.startswith("@ "):
            return self._pass(int(event[2:]))
        if now is not None and now != self._said:
            self._held().time(now)
        self._said = now
        return self._done(lambda: self._asked(event))

    def _pass(self, now: int) -> Answer:
        """What is due at a time is asked for, one after another."""
        self._said = now
        answer = self._done(lambda: self._held().time(now))
        while answer.due is not None and answer.due <= now:
            more = self._done(lambda: self._held().time(now))
            answer = more._replace(
                notices=answer.notices + more.notices,
                frames=answer.frames + more.frames,
                refusal=more.refusal or answer.refusal
            )
        return answer

    def _done(self, call: Callable[[], x25.Answer]) -> Answer:
        """What a call is answered by."""
        try:
            answer, lines = call(), self._held().lines()
        except x25.Refused as refusal:
            if refusal.number == 70:
                raise BadInput("no memory") from refusal
            return self._told([], [], "? 60" if refusal.number == 60 else f"! {refusal.number}")
        self._awaited.update(event.channel for event in answer.events)
        passed = [
            self._timeout(event) for event in answer.events if event.kind is x25.Kind.TIMEOUT
        ]
        frames = [FrameLine(ENDS[self._end][1], octets) for octets in answer.frames]
        return self._told(passed + [line.rstrip("\n") for line in lines], frames, None)

    def _timeout(self, event: x25.Event) -> str:
        """The notice of a timer that has passed."""
        return f"{self._end} timeout T{event.timeout}" + (
            f" ch={event.channel}" if event.channel else ""
        )

    def _told(self, notices: list[str], frames: list[FrameLine], refusal: str | None) -> Answer:
        """An answer, with what a mark says."""
        station = self._held()
        is_idle = station.is_idle
        self._awaited = {channel for channel in self._awaited if station.awaits(channel)}
        awaits = is_idle and (station.is_restarting or bool(self._awaited))
        return Answer(notices, frames, refusal, "", is_idle, awaits, station.next())

    def _asked(self, event: str) -> x25.Answer:
        if event == f"t1 {self._end}":
            return self._held().t1()
        if event.startswith(f"{self._end} "):
            return self._held().command(event[len(self._end) + 1 :])
        frame = x25lines.frame_line(event.encode("latin-1"))
        if not frame or frame.direction == ENDS[self._end][1]:
            raise x25.Refused(60, "no command")
        return self._held().receive(frame.octets)
