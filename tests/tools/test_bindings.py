"""Tests of the library for C from other languages: Python's binding and Rust's, and the examples
on a line."""

import copy
import ctypes
import doctest
import os
import pickle
import re
import shutil
import subprocess
import sys
import threading
import unittest
from unittest import mock

import support
from support import ToolCase
from program import find_library
from fake_library import Library
from test_c import PROTOTYPE

import golden
import tunnels
from x25tools import linked, piped
from x25tools.x25lines import BadInput

import x25  # where linked finds it

BINDING = os.path.join(support.ROOT, "bindings", "python")
RUST = os.path.join(support.ROOT, "bindings", "rust")
LIBRARY, ARCHIVE = find_library("so"), find_library("a")
TIMES = ("t1", "t3", "t20", "t21", "t22", "t23", "t26", "t25")
TIMES_OF_NONE = x25.Times(*[0] * len(TIMES))
needs_library = unittest.skipUnless(LIBRARY and ARCHIVE, "the library for C isn't built")


def declared():
    """The names of the functions that the header declares, in its order."""
    return [
        re.search(r"x25_(\w+)", text)[1]
        for text in PROTOTYPE.findall(support.read("include/x25.h").decode())
    ]


def told(answer, near, far):
    """What two stations are told until nothing is on the line between them."""
    events = []
    while answer.frames:
        near, far, answer = far, near, far.receive_all(answer.frames)
        events += answer.events
    return events


class Declared(unittest.TestCase):
    def test_each_binding_has_the_functions_of_the_header(self):
        rust = support.read("bindings/rust/src/raw.rs").decode()
        self.assertEqual(list(x25._FUNCTIONS), declared())
        # Items are taken at once, and frames are among them.
        self.assertEqual(
            re.findall(r"^    pub fn x25_(\w+)\(", rust, re.MULTILINE),
            [name for name in declared() if name not in ("take", "frames", "frame")],
        )

    def test_each_binding_has_the_kinds_of_the_header(self):
        header, rust = (
            support.read("include/x25.h").decode(),
            support.read("bindings/rust/src/event.rs").decode(),
        )
        kinds = [
            (name, int(number))
            for name, number in re.findall(r"^    X25_EVENT_(\w+) = (\d+)", header, re.MULTILINE)
        ]
        awaits = re.findall(r"^    X25_AWAITS_(\w+) = (\d)", header, re.MULTILINE)
        self.assertEqual([(awaited.name, str(awaited.value)) for awaited in x25.Awaits], awaits)
        self.assertEqual(
            [
                ("FRAME", x25._FRAME),
                ("TIMER", x25._TIMER),
                *((kind.name, kind.value) for kind in x25.Kind if kind.value),
            ],
            kinds,
        )
        downs = re.findall(r"^    X25_DOWN_(\w+) = (\d+)", header, re.MULTILINE)
        self.assertEqual([(down.name, str(down.value)) for down in x25.Down], downs)
        arms = re.findall(r"^            (\d+|kind) => Event::(\w+)", rust, re.MULTILINE)
        named = [
            (str(number), "".join(word.capitalize() for word in name.split("_")))
            for name, number in kinds[2:]
        ]
        self.assertEqual(arms, [*named, ("kind", "Other")])

    @unittest.skipUnless(shutil.which("mypy"), "mypy isn't installed")
    def test_the_binding_of_python_is_typed(self):
        done = subprocess.run(
            ["mypy", "--strict", "--cache-dir=/dev/null", os.path.join(BINDING, "x25")],
            capture_output=True,
            text=True,
        )
        self.assertEqual((done.returncode, done.stderr), (0, ""), done.stdout)


class Versions(unittest.TestCase):
    def test_a_library_of_another_version_is_not_taken(self):
        """It is said before a function of it is looked for, which it may not have, or may have
        with other parameters."""
        other, none = (
            mock.Mock(spec=["x25_version"], **{"x25_version.return_value": 200}),
            mock.Mock(spec=[]),
        )
        sized = mock.Mock(
            spec=["x25_version", "x25_event_size"],
            **{"x25_version.return_value": 100, "x25_event_size.return_value": 64},
        )
        cases = (
            (other, "/it is of version 200, .* 100"),
            (none, "/it is of version 0"),
            (sized, "an event of /it has 64 octets, and .* 80$"),
        )
        for library, said in cases:
            with mock.patch.object(ctypes, "PyDLL", return_value=library), self.assertRaisesRegex(
                OSError, f"^{said}"
            ):
                x25.load("/it")
        self.assertNotIn("/it", x25._loaded)

    def test_each_binding_is_of_the_version_of_the_header(self):
        version = re.search(
            r"^#define X25_VERSION (\d+)", support.read("include/x25.h").decode(), re.MULTILINE
        )[1]
        self.assertEqual(str(x25.VERSION), version)
        self.assertIn(
            f"pub const VERSION: u32 = {version};\n",
            support.read("bindings/rust/src/raw.rs").decode(),
        )


class Missing(unittest.TestCase):
    def test_where_a_library_is_looked_for_is_said(self):
        with mock.patch.dict(os.environ, X25_LIBRARY="/nowhere"), self.assertRaisesRegex(
            OSError, "^/nowhere/libx25.so: .*X25_LIBRARY"
        ):
            x25.Station(x25.DTE)


class Answers(unittest.TestCase):
    """What the binding of Python makes of the answers of a library, whose calls a test says."""

    def station(self, *plays):
        patch = mock.patch.dict(x25._loaded, fake=Library(plays))
        patch.start()
        self.addCleanup(patch.stop)
        return x25.Station(x25.DTE, library="fake")

    def test_threads_get_each_the_answer_to_its_own_calls(self):
        station, wrong = self.station(), []

        def ask(octets):
            for _ in range(2000):
                frames = station.receive(octets).frames
                if frames != [octets]:
                    wrong.append(frames)

        threads = [threading.Thread(target=ask, args=(bytes([octet]) * 40,)) for octet in range(4)]
        interval = sys.getswitchinterval()
        sys.setswitchinterval(1e-6)
        try:
            for thread in threads:
                thread.start()
            for thread in threads:
                thread.join()
        finally:
            sys.setswitchinterval(interval)
        self.assertEqual(wrong, [])

    def test_more_items_than_are_taken_at_once(self):
        frames = [bytes([i]) for i in range(200)]
        self.assertEqual(
            self.station((0, frames, [x25.Kind.LINK_UP], 2)).connect(),
            x25.Answer(frames, [x25.Event(x25.Kind.LINK_UP)], x25.Timer.GOES_ON),
        )

    def test_an_event_of_a_kind_that_is_not_known(self):
        self.assertEqual(
            self.station((0, [], [999], 0)).connect().events, [x25.Event(x25.Kind.OTHER)]
        )

    def test_a_refusal_among_frames_has_what_was_answered_before(self):
        station = self.station((0, [b"one"], [x25.Kind.LINK_UP], 1), (70, [], [], 0))
        with self.assertRaises(x25.Refused) as caught:
            station.receive_all([b"", b"", b""])
        self.assertEqual((caught.exception.number, caught.exception.taken), (70, 1))
        self.assertEqual(
            caught.exception.answer,
            x25.Answer([b"one"], [x25.Event(x25.Kind.LINK_UP)], x25.Timer.BEGINS),
        )

    def test_what_comes_into_the_midst_of_a_call_is_told_so(self):
        """As a signal handler, `__del__` and a trace function do: each call of that station then
        does nothing, and the other one goes on."""
        made, said = [], []

        class Midst(Library):
            def x25_take_all(self, *words):
                if not made and not said:
                    for call in (
                        station.pull,
                        station.close,
                        station.lines,
                        lambda: station.timer,
                        lambda: station.room(1),
                        station.next,
                        lambda: station.receive_all([b""]),
                        lambda: station.set_times(TIMES_OF_NONE),
                    ):
                        try:
                            made.append(call())
                        except x25.Busy as error:
                            said.append(str(error))
                    other = x25.Station(x25.DTE, library="fake")
                    made.append(other.timer)
                return super().x25_take_all(*words)

            def __getattr__(self, name):
                return lambda *words: 0

        with mock.patch.dict(x25._loaded, fake=Midst([(0, [b"one"], [], 1)])):
            station = x25.Station(x25.DTE, library="fake")
            self.assertEqual(station.connect(), x25.Answer([b"one"], [], x25.Timer.BEGINS))
        self.assertEqual(
            (made, said), ([x25.Timer.OFF], ["a call of this station is under way"] * 8)
        )

    def test_an_error_leaves_no_call_under_way(self):
        station = self.station((0, [b"one"], [], 1), (0, [b"two"], [], 1))
        with self.assertRaises(TypeError):
            station.receive("text")
        with mock.patch.object(
            station, "_answer", side_effect=KeyboardInterrupt
        ), self.assertRaises(KeyboardInterrupt):
            station.connect()
        self.assertEqual(station.connect().frames, [b"two"])

    def test_a_station_is_not_copied(self):
        station = self.station()
        for make in copy.copy, copy.deepcopy, pickle.dumps:
            with self.assertRaisesRegex(TypeError, "neither copied nor pickled"):
                make(station)

    def test_octets_of_any_kind(self):
        station, octets = self.station(), b"\0one"
        for given in (
            octets,
            bytearray(octets),
            memoryview(octets),
            memoryview(octets).cast("i"),
            memoryview(b"_".join([octets, b""]))[:-1],
        ):
            with self.subTest(type(given)):
                self.assertEqual(station.receive(given).frames, [octets])
                self.assertEqual(station.receive_all([given, given]).frames, [b"", b""])
        for given in 4, "text", [1, 2]:
            with self.assertRaises(TypeError):
                station.receive(given)

    def test_errors_are_pickled_whole(self):
        answer = x25.Answer([b"one"], [x25.Event(x25.Kind.LINK_UP)], x25.Timer.BEGINS)
        for error in x25.Refused(9, "the link isn't up"), x25.Refused(70, "no memory", 2, answer):
            with self.subTest(error):
                again = pickle.loads(pickle.dumps(error))
                self.assertEqual((str(again), vars(again)), (str(error), vars(error)))


@needs_library
class Python(unittest.TestCase):
    def test_what_its_documentation_shows(self):
        os.environ["X25_LIBRARY"] = os.path.dirname(LIBRARY)
        self.assertEqual(doctest.testmod(x25, verbose=False).failed, 0)

    def test_causes_and_diagnostics(self):
        with x25.Station(x25.DTE, library=LIBRARY) as dte, x25.Station(
            x25.DCE, library=LIBRARY
        ) as dce:
            told(dte.connect(), dte, dce)
            answer = dte.restart(200, 5)
            self.assertEqual(
                answer.events, [x25.Event(x25.Kind.RESTART_ASKED, cause=200, diagnostic=5)]
            )
            self.assertEqual(
                told(answer, dte, dce)[0], x25.Event(x25.Kind.RESTARTED, cause=200, diagnostic=5)
            )
            answer = dte.call("1", "2")
            channel = answer.channel
            told(answer, dte, dce)
            self.assertEqual(
                told(dce.clear(channel, cause=9), dce, dte)[0],
                x25.Event(x25.Kind.CLEARED, channel, cause=9),
            )
            for cause, diagnostic in ((7, 0), (256, 0), (0, 256), (-1, 0)):
                with self.assertRaisesRegex(x25.Refused, "34: "):
                    dte.restart(cause, diagnostic)

    def test_what_is_given(self):
        """Facilities go out with a call, as `decode --wide` reads it, and the other end is told
        what is given."""

        def given(*words):
            return [(event.kind, event.facilities, event.user) for event in told(*words)]

        charged, beside = bytes.fromhex("01800312"), x25.Kind.BESIDE
        with x25.Station(x25.DTE, library=LIBRARY, wide=True) as dte, x25.Station(
            x25.DCE, library=LIBRARY, wide=True
        ) as dce:
            told(dte.connect(), dte, dce)
            for text, number in (("with 42 - call 1 2 -", 34), ("with 0101 - send 1 0 41", 60)):
                with self.assertRaisesRegex(x25.Refused, f"{number}: "):
                    dte.command(text)
            with self.assertRaisesRegex(x25.Refused, "34: "):
                dte.call("1", "2", facilities=bytes.fromhex("420707"))
            answer = dte.call("1", "2", b"A", facilities=charged, d=True)
            channel = answer.channel
            call, = answer.frames
            self.assertEqual(
                given(answer, dte, dce), [(x25.Kind.INCOMING, b"", b"A"), (beside, charged, b"")]
            )
            self.assertEqual(
                given(dce.accept(channel, user=b"h\0i", d=True), dce, dte)[:2],
                [(x25.Kind.CONNECTED, b"", b""), (beside, b"", b"h\0i")],
            )
            self.assertEqual(
                given(dte.clear(channel, 0, 5, facilities=charged), dte, dce)[:2],
                [(x25.Kind.CLEARED, b"", b""), (beside, charged, b"")],
            )
        if support.PROGRAM:
            lines = support.decode(f"> {call.hex()}\n".encode(), "--wide")
            self.assertEqual(
                lines[0].partition(" | ")[2],
                "CALL ch=1 D=1 called=1 calling=2 fac=01800312 data=41 ~ wide",
            )
        with x25.Station(x25.DTE, library=LIBRARY) as dte, x25.Station(
            x25.DCE, library=LIBRARY
        ) as dce:
            told(dte.connect(), dte, dce)
            with self.assertRaisesRegex(x25.Refused, "34: "):
                dte.call("1", "2", facilities=charged)
            self.assertEqual(dte.call("1", "2").frames[0][2:8].hex(), "10010b111200")

    def test_confirmation(self):
        """D of the last packet asks for it, the other end's user sees it, and one acknowledgement
        may confirm several messages."""

        with x25.Station(x25.DTE, library=LIBRARY, wide=True) as dte, x25.Station(
            x25.DCE, library=LIBRARY, wide=True
        ) as dce:
            told(dte.connect(), dte, dce)
            answer = dte.call("1", "2")
            channel = answer.channel
            told(answer, dte, dce)
            told(dce.accept(channel), dce, dte)
            asked, plain = (
                dte.send(channel, b"A" * 129, q=True, confirm=True), dte.send(channel, b"B")
            )
            self.assertEqual(
                (
                    asked.events[0].d,
                    asked.events[0].q,
                    plain.events[0].d,
                    dte.unconfirmed(channel),
                ),
                (True, True, False, 1),
            )
            self.assertEqual([frame[2] >> 4 for frame in asked.frames], [0b1001, 0b1101])
            answer = x25.Answer(asked.frames + plain.frames, [], plain.timer)
            events = told(answer, dte, dce)
            self.assertEqual([(event.kind, event.d, event.confirmed) for event in events],
                             [
                                 (x25.Kind.MESSAGE, True, 0),
                                 (x25.Kind.CONFIRMED, False, 1),
                                 (x25.Kind.MESSAGE, False, 0),
                             ])
            self.assertEqual(
                events[1],
                x25.Event(x25.Kind.CONFIRMED, channel, dte.stretch(channel), confirmed=1),
            )
            self.assertEqual((dte.unconfirmed(channel), dte.unconfirmed(-1)), (0, 0))
        with x25.Station(x25.DTE, library=LIBRARY) as dte, x25.Station(
            x25.DCE, library=LIBRARY
        ) as dce:
            told(dte.connect(), dte, dce)
            answer = dte.call("1", "2")
            channel = answer.channel
            told(answer, dte, dce)
            told(dce.accept(channel), dce, dte)
            with self.assertRaisesRegex(x25.Refused, "34: "):
                dte.send(channel, b"A", confirm=True)

    def test_open_calls(self):
        """Those that are up, and those on which an answer is awaited."""
        with x25.Station(x25.DTE, library=LIBRARY, channels=2) as dte, x25.Station(
            x25.DCE, library=LIBRARY, channels=2
        ) as dce:
            counts = []
            for caller, other, ask in (
                (dte, dce, dte.connect),
                (dte, dce, lambda: dte.call("1", "2")),
                (dce, dte, lambda: dce.accept(2)),
                (dte, dce, lambda: dte.call("1", "2")),
                (dte, dce, lambda: dte.clear(1)),
                (dce, dte, lambda: dce.restart(3)),
            ):
                answer = ask()
                counts.append((dte.open_calls, dce.open_calls))
                told(answer, caller, other)
            counts.append((dte.open_calls, dce.open_calls))
            self.assertEqual(counts, [(0, 0), (1, 0), (1, 1), (2, 1), (2, 1), (1, 0), (0, 0)])

    def test_one_way_channels(self):
        """Of two, 1 is one-way incoming: the DTE calls on 2 alone, and the DCE on 1."""
        ranges = {"channels": 2, "incoming": 1}
        with x25.Station(x25.DTE, library=LIBRARY, **ranges) as dte, x25.Station(
            x25.DCE, library=LIBRARY, **ranges
        ) as dce:
            near, far, answer = dte, dce, dte.connect()
            while answer.frames:
                near, far, answer = far, near, far.receive_all(answer.frames)
            self.assertEqual(dte.call("1", "2").channel, 2)
            with self.assertRaisesRegex(x25.Refused, "41: "):
                dte.call("1", "2")
            self.assertEqual(dce.call("1", "2").channel, 1)

    def test_the_first_time_begins_what_was_begun_before(self):
        with x25.Station(x25.DTE, library=LIBRARY) as dte:
            dte.set_times()
            self.assertEqual(len(dte.connect().frames), 1)
            self.assertEqual(dte.time(1_000_000), x25.Answer([], [], x25.Timer.GOES_ON))
            self.assertEqual((dte.next(), dte.next_timeout(1_000_000, 60_000)), (1_003_000, 3_000))
            self.assertEqual(dte.time(1_003_000).events, [x25.Event(x25.Kind.TIMEOUT, timeout=1)])

    def test_a_station_that_was_closed(self):
        with x25.Station(x25.DCE, library=LIBRARY) as station:
            self.assertEqual(station.timer, x25.Timer.OFF)
        with x25.Station(x25.DCE, library=LIBRARY, message=0) as station:
            self.assertEqual(station.room(1), 0)
        with self.assertRaisesRegex(x25.Refused, "16: no station is held"):
            station.connect()
        one_way = (
            {"channels": 2, "incoming": 1, "outgoing": 2}, {"incoming": -1}, {"outgoing": 65536}
        )
        for settings in (
            {"k": 8},
            {"k": 256},
            {"channels": -1},
            {"channels": 0},
            {"channels": 4096},
            {"channels": 65537},
            {"n2": 0},
            {"message": -1},
            {"message": 65536},
            *one_way,
        ):
            with self.assertRaisesRegex(x25.Refused, "14: "):
                x25.Station(x25.DTE, library=LIBRARY, **settings)


@needs_library
@unittest.skipUnless(shutil.which("cargo"), "there is no cargo")
class Rust(ToolCase):
    def test_its_tests(self):
        shutil.copytree(RUST, f"{self.folder}/rust", ignore=shutil.ignore_patterns("target"))
        environment = {**os.environ, "X25_LIBRARY": os.path.dirname(ARCHIVE)}
        done = subprocess.run(
            ["cargo", "test", "--offline", "-q"],
            cwd=f"{self.folder}/rust",
            env=environment,
            capture_output=True,
            text=True,
        )
        self.assertEqual(done.returncode, 0, done.stdout + done.stderr)


@needs_library
class Examples(ToolCase):
    """The tunnels of examples/, of the same or of two languages, over a line that loses a tenth of
    what it carries."""

    FOLDER = os.path.join(support.ROOT, "examples")

    def in_c(self):
        path, source = f"{self.folder}/tunnel", os.path.join(self.FOLDER, "c", "tunnel.c")
        words = [
            "-std=c11", "-Wall", "-Wextra", "-Werror", "-O1", f"-I{support.ROOT}/include", source,
            ARCHIVE, "-o", path,
        ]
        subprocess.run(["cc", *words], check=True)
        return [path]

    def in_python(self):
        return [
            "env",
            f"X25_SO={LIBRARY}",
            f"PYTHONPATH={BINDING}",
            sys.executable,
            os.path.join(self.FOLDER, "python", "tunnel.py"),
        ]

    def in_rust(self):
        for name, source in (
            ("bindings/rust", RUST), ("examples/rust", os.path.join(self.FOLDER, "rust"))
        ):
            shutil.copytree(
                source, f"{self.folder}/{name}", ignore=shutil.ignore_patterns("target")
            )
        environment = {**os.environ, "X25_LIBRARY": os.path.dirname(ARCHIVE)}
        subprocess.run(
            ["cargo", "build", "--offline", "-q"],
            cwd=f"{self.folder}/examples/rust",
            env=environment,
            check=True,
        )
        return [f"{self.folder}/examples/rust/target/debug/tunnel"]

    @unittest.skipUnless(shutil.which("cc"), "there is no C compiler")
    def test_one_in_c_and_one_in_python(self):
        near, far = self.in_c(), self.in_python()
        self.assertEqual((tunnels.run(near, far), tunnels.run(far, near)), (16, 16))

    @unittest.skipUnless(shutil.which("cargo"), "there is no cargo")
    def test_two_in_rust(self):
        words = self.in_rust()
        self.assertEqual(tunnels.run(words, words), 16)

    def assert_told(self, words, end, manner):
        """At whatever moment the other end resets, clears, restarts, sets the link up anew or
        begins anew, a hole ends a connection by an error, and SIGTERM ends the tunnel well."""
        wrong, counts, status = tunnels.moments(words, end, manner, most=12)
        self.assertEqual((wrong, status), ([], 0))
        self.assertEqual(counts.pop("nothing"), {False: 2})
        for name, ends in counts.items():
            self.assertGreater(ends[True], 4, name)

    @unittest.skipUnless(shutil.which("cc"), "there is no C compiler")
    def test_no_hole_goes_untold_in_c(self):
        words = self.in_c()
        self.assert_told(words, "dte", "listen")
        self.assert_told(words, "dce", "connect")

    def test_no_hole_goes_untold_in_python(self):
        self.assert_told(self.in_python(), "dce", "listen")

    @unittest.skipUnless(shutil.which("cargo"), "there is no cargo")
    def test_no_hole_goes_untold_in_rust(self):
        words = self.in_rust()
        self.assert_told(words, "dte", "connect")
        self.assert_told(words, "dce", "listen")

    def test_they_are_short(self):
        for name, most in (
            ("c/tunnel.c", 170), ("python/tunnel.py", 200), ("rust/src/main.rs", 210)
        ):
            self.assertLess(support.read(f"examples/{name}").count(b"\n"), most, name)


@needs_library
@support.needs_station
class Bridges(ToolCase):
    def bridge(self, end, commands, *words):
        """A bridge of an end, with commands of its own."""
        command = [
            sys.executable,
            os.path.join(support.TOOLS, "bridge.py"),
            end,
            "--commands",
            self.file(end, commands),
            *words,
        ]
        return subprocess.Popen(command, stdout=subprocess.PIPE, stderr=subprocess.PIPE, text=True)

    def test_a_bridge_over_the_library(self):
        """It talks to one over the program."""
        answers = b"wait dce incoming\ndce accept 1\nwait dce message\ndce send 1 0 6869\n"
        asks = (
            b"dte connect\nwait dte restarted\ndte call 123 4567 41\nwait dte connected\ndte send "
            b"1 0 68656c6c6f\nwait dte message\ndte sing\n"
        )
        with self.bridge("dce", answers, "--listen", "0", "--library", LIBRARY) as far:
            port = far.stderr.readline().rpartition(":")[2].strip()
            with self.bridge(
                "dte", asks, "--connect", f"127.0.0.1:{port}", "--x25", support.PROGRAM
            ) as near:
                self.assertIn(
                    "dte message ch=1 at 1.0.0 q=0 data=6869\n", near.communicate(timeout=60)[0]
                )
            self.assertIn(
                "dce message ch=1 at 1.0.0 q=0 data=68656c6c6f\n", far.communicate(timeout=60)[0]
            )


@needs_library
@support.needs_station
class Linked(unittest.TestCase):
    def assert_same(self, end, words, events):
        """A station of the library, with the settings that the program's is given by words,
        answers as that."""
        numbers = {
            word[2:]: int(number) for word, number in zip(words, words[1:]) if number.isdigit()
        }
        times = {name: numbers.pop(name) for name in TIMES if name in numbers}
        flags = {
            word[2:].replace("-", "_"): True for word in words if word in ("--say-sizes", "--wide")
        }
        with piped.Station(support.PROGRAM, end, ["--clock", *words]) as one, linked.Station(
            LIBRARY, end, times, **numbers, **flags
        ) as other:
            self.assertEqual(one.first, other.first)
            for event in events:
                with self.subTest(event):
                    self.assertEqual(one.ask(event), other.ask(event))

    def test_it_answers_as_the_one_behind_a_pipe(self):
        events = [
            "dte connect", "< 01738357", "< 03001000fb0700c478", "dte call 123 4567 41",
            "dte sing", "dce connect", "t1 dce", "t1 dte",
        ]
        events += [
            "dte clear 3", "> 013febdf", "< 0321a415", "< 0000", "dte disconnect", "dte connect",
            "dte pull",
        ]
        self.assert_same("dte", ["--k", "3", "--channels", "2", "--say-sizes", "--wide"], events)

    def test_its_clock_is_that_of_the_one_behind_a_pipe(self):
        cases = [
            it
            for it in golden.cases(golden.names())
            if it.name.startswith("station/clock_") and not it.name.endswith("_that_are_none")
        ]
        self.assertGreater(len(cases), 3)
        for case in cases:
            _, end, *words = case.words
            with self.subTest(case.name):
                self.assert_same(
                    end,
                    [word for word in words if word != "--clock"],
                    case.input.decode().splitlines(),
                )

    def test_an_event_at_a_time(self):
        with linked.Station(LIBRARY, "dte", {"t1": 1000}) as station:
            self.assertEqual(station.ask("dte connect", 70).due, 1070)
            self.assertEqual(station.ask("dte connect", 900)[2:], ("! 12", "", False, False, 1070))
            fired = station.ask("@ 1500")
            self.assertEqual(
                (fired.notices, [frame.text() for frame in fired.frames], fired.due),
                (["dte timeout T1"], ["> 013febdf"], 2500),
            )

    def test_no_library(self):
        with self.assertRaisesRegex(BadInput, "/nowhere"), linked.Station(
            "/nowhere/libx25.so", "dte", {}
        ):
            pass


if __name__ == "__main__":
    unittest.main()
