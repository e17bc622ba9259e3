"""Tests of bridge.py with the program's `station`: two bridges, each with a station, and what the
users of both are told."""

import os
import re
import shutil
import signal
import socket
import subprocess
import sys
import threading
import time
import unittest

import counted
import support
from counted import CountedCase
from support import ToolCase
from tunnels import free_ports

CALL = "dte call 123 4567 41"
ANSWER = "wait dce incoming\ndce accept 1\n"
OPENING = f"dte connect\nwait dte restarted\n{CALL}\nwait dte connected\n"
SECONDS = 900
# An I frame of a trace that carries RNR.
RNR = re.compile(rb"[<>] 0[13].[02468ace]1001[02468ace]5")


def message(end, number):
    """The octets of a message: each is another one; now and then it takes several packets."""
    return f"{end}{number:04d}".encode().hex() * (60 if number % 40 == 7 else 1)


def messages(notices):
    """What was handed up, in order."""
    return [
        found[1]
        for notice in notices
        if (found := re.fullmatch(r"\w+ message ch=1 at 1\.0\.0 q=0 data=(\w+)", notice))
    ]


class Pair:
    """What users of two bridges do, and what they are told."""

    def listening(self, *words):
        """A bridge of the DCE that listens, and the words for one that calls it."""
        dce = self.begin("dce", "--listen", "0", *words)
        return dce, ["--connect", "127.0.0.1:" + dce.stderr.readline().rsplit(":", 1)[1].strip()]

    def assert_call(self, told_dte, told_dce):
        """The call of the README was made and a message went."""
        told_dte, told_dce = (
            [it for it in told if not it.startswith("#")] for told in (told_dte, told_dce)
        )
        self.assertEqual(
            told_dte[-3:],
            [
                "dte call ch=1 at 1.0.0 called=123 calling=4567 data=41",
                "dte connected ch=1",
                "dte send ch=1 at 1.0.0 q=0 data=6869",
            ],
        )
        self.assertEqual(
            told_dce[-3:],
            [
                "dce incoming ch=1 at 1.0.0 called=123 calling=4567 data=41",
                "dce accept ch=1",
                "dce message ch=1 at 1.0.0 q=0 data=6869",
            ],
        )

    def by_files(self, end, commands):
        """Words that have commands come from a file and notices go to another, and the path of
        that."""
        paths = [os.path.join(self.folder, f"{end}.{name}") for name in ("commands", "told")]
        with open(paths[0], "w") as file:
            file.write(commands)
        return ["--commands", paths[0], "--notices", paths[1]], paths[1]

    def told(self, path):
        return support.read(path).decode().splitlines()

    def hears(self, child, beginning):
        """The next notice that begins so."""
        line = "nothing"
        while line and not line.startswith(beginning):
            line = child.stdout.readline().rstrip("\n")
        self.assertTrue(line, f"{beginning} didn't come")
        return line

    def hears_all(self, child, *beginnings):
        """Notices that begin so, in any order."""
        left = list(beginnings)
        while left:
            line = self.hears(child, tuple(left))
            left = [beginning for beginning in left if not line.startswith(beginning)]

    @staticmethod
    def asks(child, *commands):
        child.stdin.write("".join(f"{command}\n" for command in commands))
        child.stdin.flush()

    def joined(self, *words):
        """Two bridges that stay, by TCP, with a call between them. Either may be killed: the DCE
        listens again, the DTE calls again."""
        same = ["--stay", "--t1", "0.3", "--n2", "5", *words]
        dce, line = self.listening(*same)
        dte = self.begin("dte", *line, "--retry", *same)
        self.open_call(dte, dce)
        return dte, dce, [*line, "--retry", *same]

    def open_call(self, dte, dce):
        self.asks(dte, "dte connect", "wait dte restarted", CALL)
        self.hears(dce, "dce incoming")
        self.asks(dce, "dce accept 1")
        self.hears(dte, "dte connected")


@support.needs_station
class Two(Pair, CountedCase):
    """Over counted time."""

    def begin(self, end, *words):
        return self.started(end, "--x25", support.PROGRAM, *words)

    def play(self, dte, dce, commands, answers=ANSWER):
        """Gives both their commands; answers the notices of both, and what both said."""
        (told_dte, said_dte), (told_dce, said_dce) = counted.communicate(
            self.clock, (dte, commands), (dce, answers)
        )
        said = {"dte": said_dte, "dce": said_dce}
        self.assertEqual((dte.returncode, dce.returncode), (0, 0), said)
        return told_dte.splitlines(), told_dce.splitlines(), said

    def test_a_call_over_tcp(self):
        trace = os.path.join(self.folder, "trace")
        dce, words = self.listening("--t1", "2", "--quiet", "8")
        told_dte, told_dce, _ = self.play(
            self.begin("dte", *words, "--t1", "2", "--quiet", "3", "--trace", trace),
            dce,
            OPENING + "dte send 1 0 6869\n",
        )
        self.assert_call(told_dte, told_dce)
        with open(trace, "rb") as file:
            rows = file.read().splitlines()
        # What stands in the trace is read without fault.
        decoded = support.decode(b"".join(row.split(b"\t")[1] + b"\n" for row in rows))
        self.assertIn(
            "> I cmd P=0 S=1 R=1 | CALL ch=1 called=123 calling=4567 fac=- data=41", decoded
        )
        self.assertEqual([text for text in decoded if "fault" in text], [])

    def test_a_message_is_confirmed(self):
        dce, words = self.listening("--t1", "2", "--quiet", "8")
        told_dte, told_dce, _ = self.play(
            self.begin("dte", *words, "--t1", "2", "--quiet", "3"),
            dce,
            OPENING + "dte send 1 0 d 6869\nwait dte confirmed\n",
        )
        told_dte, told_dce = (
            [it for it in told if not it.startswith("#")] for told in (told_dte, told_dce)
        )
        self.assertEqual(
            told_dte[-2:],
            ["dte send ch=1 at 1.0.0 q=0 d=1 data=6869", "dte confirmed ch=1 at 1.0.0 count=1"],
        )
        self.assertEqual(told_dce[-1], "dce message ch=1 at 1.0.0 q=0 d=1 data=6869")

    def test_an_end_that_begins_by_sabme(self):
        """It is answered DM at once, and SABM after that by UA."""
        dce, words = self.listening("--quiet", "3")
        host, port = words[1].split(":")
        with socket.create_connection(
            (host, int(port)), timeout=SECONDS
        ) as joined, joined.makefile("rw") as lines:
            answers = []
            for command in ("> 017fef9d\n", "> 013febdf\n"):
                lines.write(command)
                lines.flush()
                answers.append(lines.readline())
        counted.communicate(self.clock, (dce, ""))
        self.assertEqual(
            support.decode("".join(answers).encode()), ["< DM rsp F=1", "< UA rsp F=1"]
        )

    def test_a_call_over_datagrams(self):
        one, other = free_ports(2)
        dce = self.begin("dce", "--udp", f"{one}:{other}", "--t1", "1", "--quiet", "8")
        told_dte, told_dce, _ = self.play(
            self.begin("dte", "--udp", f"{other}:{one}", "--t1", "1", "--quiet", "3"),
            dce,
            OPENING + "dte send 1 0 6869\n",
        )
        self.assert_call(told_dte, told_dce)

    def test_a_command_that_is_refused(self):
        dce, words = self.listening("--t1", "1", "--quiet", "8")
        dte = self.begin("dte", *words, "--t1", "1", "--quiet", "3")
        (out, said), _ = counted.communicate(self.clock, (dte, "dte call 1 2 -\n"), (dce, ""))
        self.assertEqual(
            (dte.returncode, out.partition("\n")[2]),
            (1, "! 9\n# ! 9, the link isn't up: 'dte call 1 2 -'\n"),
            said,
        )
        self.assertEqual(out.partition("\n")[0], f"# connected to {words[1]}")

    def test_a_user_who_is_not_ready_holds_no_other_circuit(self):
        """60 messages to him wait; what is sent on another circuit comes at once, and a clear of
        his own comes too."""
        same = ["--stay", "--channels", "2", "--quiet", "1"]
        dce, line = self.listening(*same)
        dte = self.begin("dte", *line, *same)
        self.asks(dte, "dte connect", "wait dte restarted", CALL, CALL)
        for channel in (2, 1):
            self.hears(dce, f"dce incoming ch={channel}")
        self.asks(dce, "dce accept 1", "dce accept 2", "dce notready 2")
        self.hears(dce, "dce notready ch=2")
        self.hears(dte, "dte connected ch=2")
        self.clock.sleep(0.5)
        sends = [f"dte send 2 0 {message('dte', number)}" for number in range(60)]
        self.asks(
            dte,
            *sends,
            "dte send 1 0 41",
            "dte clear 2",
            "wait dte cleardone",
            CALL,
            "dte send 1 0 42",
        )
        self.assertEqual(self.hears(dce, "dce message"), "dce message ch=1 at 1.0.0 q=0 data=41")
        self.hears(dce, "dce cleared ch=2")
        self.assertTrue(self.hears(dce, "dce incoming").startswith("dce incoming ch=2 at 1.1.0"))
        self.assertEqual(self.hears(dce, "dce message"), "dce message ch=1 at 1.0.0 q=0 data=42")
        # None of the 60 is sent in the next call.
        self.asks(dce, "dce accept 2")
        self.hears(dte, "dte connected ch=2")
        self.asks(dte, "dte send 2 0 43")
        self.assertEqual(self.hears(dce, "dce message"), "dce message ch=2 at 1.1.0 q=0 data=43")

    def test_one_way_channels(self):
        """1 and 2 of four are for calls of the DCE and 4 for those of the DTE: an end is refused
        where only the other's are free."""
        same = ["--stay", "--channels", "4", "--incoming", "2", "--outgoing", "1"]
        dce, line = self.listening(*same)
        dte = self.begin("dte", *line, *same)
        self.asks(dte, "dte connect", "wait dte restarted", CALL, CALL, "dte call 5 6 -")
        for channel in (4, 3):
            self.hears(dce, f"dce incoming ch={channel}")
        self.hears(dte, "# ! 41, no channel is free: 'dte call 5 6 -'")
        self.asks(dce, *["dce call 7 8 -"] * 2, "dce call 9 0 -")
        for channel in (1, 2):
            self.hears(dte, f"dte incoming ch={channel}")
        self.hears(dce, "# ! 41, no channel is free: 'dce call 9 0 -'")

    def test_connect_behind_disconnect(self):
        dte, dce, _ = self.joined()
        for _ in range(3):
            self.asks(dte, "dte disconnect", "wait dte linkdown")
            self.hears(dce, "dce linkdown disc")
            self.open_call(dte, dce)
        # Of either end.
        self.asks(dce, "dce disconnect", "wait dce linkdown", "dce connect")
        self.hears(dte, "dte restarted")
        self.asks(dte, CALL)
        self.hears(dce, "dce incoming")

    def test_signals_end_with_disc(self):
        for number, status in ((signal.SIGTERM, 143), (signal.SIGINT, 130)):
            dte, dce, _ = self.joined()
            dte.send_signal(number)
            self.hears(dce, "dce linkdown disc")
            (out, said), = counted.communicate(self.clock, (dte, ""))
            self.assertEqual(
                (dte.returncode, out.splitlines()[-1], said), (status, "dte disconnected ua", "")
            )

    def test_readers_that_stall(self):
        """Neither user reads while 400 messages of a kilobyte are sent each way: nothing is lost,
        and the link stands."""
        sent = {
            end: [f"{end}{number:04d}".encode().hex() * 140 for number in range(400)]
            for end in ("dte", "dce")
        }
        for end, opening in (("dte", OPENING), ("dce", ANSWER)):
            self.file(
                end,
                (opening + "".join(f"{end} send 1 0 {octets}\n" for octets in sent[end])).encode(),
            )
        dce, line = self.listening(
            "--t1", "1", "--stay", "--commands", os.path.join(self.folder, "dce")
        )
        trace = os.path.join(self.folder, "trace")
        dte = self.begin(
            "dte",
            *line,
            "--t1",
            "1",
            "--stay",
            "--commands",
            os.path.join(self.folder, "dte"),
            "--trace",
            trace,
        )
        while not (os.path.exists(trace) and RNR.search(support.read(trace))):
            self.clock.sleep(0.1)
        told, left = {"dte": [], "dce": []}, {"dte": 400, "dce": 400}
        while any(left.values()):
            for end, child in (("dte", dte), ("dce", dce)):
                if left[end]:
                    told[end].append(child.stdout.readline().rstrip("\n"))
                    left[end] -= " message " in told[end][-1]
        for end, other in (("dte", "dce"), ("dce", "dte")):
            self.assertEqual(messages(told[end]), sent[other])
            self.assertEqual([it for it in told[end] if "linkdown" in it or "left out" in it], [])
        self.assertTrue(any("is held" in it for it in told["dte"] + told["dce"]))

    def test_a_trace_with_losses_is_whole(self):
        """Of two bridges one loses frames: what its trace has breaks no rule."""
        trace = os.path.join(self.folder, "trace")
        sends = "".join(f"{{0}} send 1 0 {message('dte', number)}\n" for number in range(100))
        same = ["--t1", "0.3", "--quiet", "5", "--n2", "200"]
        dce, line = self.listening(*same)
        dte = self.begin(
            "dte", *line, *same, "--lose", "0.1", "--damage", "0.05", "--trace", trace
        )
        self.play(dte, dce, OPENING + sends.format("dte"), ANSWER + sends.format("dce"))
        rows = support.read(trace).splitlines()
        given = b"".join(row.split(b"\t")[1] + b"\n" for row in rows)
        told = subprocess.run(
            [support.PROGRAM, "judge", "--at", "line"],
            input=given,
            capture_output=True,
            timeout=60,
        )
        self.assertEqual((told.returncode, re.findall(b".* ! .*", told.stdout)), (0, []))

    def exchange(self, count, *words):
        """Joins two by TCP, and sends so many messages each way; answers what both said at the
        end."""
        sent = {end: [message(end, number) for number in range(count)] for end in ("dte", "dce")}
        sends = {
            end: "".join(f"{end} send 1 0 {octets}\n" for octets in sent[end]) for end in sent
        }
        # T1 has to be longer than the way there and back, also on a machine that does much else.
        same = ["--t1", "0.5", "--quiet", "8", "--n2", "200", "--stats", *words]
        dce, line = self.listening(*same)
        dte = self.begin("dte", *line, *same)
        told_dte, told_dce, said = self.play(
            dte, dce, OPENING + sends["dte"], ANSWER + sends["dce"]
        )
        self.assertEqual(messages(told_dce), sent["dte"])
        self.assertEqual(messages(told_dte), sent["dce"])
        return said

    def test_a_thousand_messages_each_way(self):
        self.assertIn("0 + 0 lost, 0 + 0 damaged", self.exchange(1000)["dte"])

    def test_a_thousand_messages_each_way_over_losses(self):
        for name, text in self.exchange(
            1000, "--lose", "0.03", "--damage", "0.02", "--seed", "7"
        ).items():
            counts = [
                int(number)
                for number in re.search(
                    r"(\d+) \+ (\d+) lost, (\d+) \+ (\d+) damaged", text
                ).groups()
            ]
            self.assertTrue(all(count > 10 for count in counts), (name, text))

    def test_losses_that_heal(self):
        for text in self.exchange(
            5, "--lose", "0.2", "--heal", "--t1", "0.2", "--quiet", "3"
        ).values():
            self.assertNotIn("0 + 0 lost", text)


@support.needs_station
class Processes(Pair, ToolCase):
    """What has to be a process, as it is killed, or has another network."""

    def begin(self, end, *words):
        command = [
            sys.executable,
            os.path.join(support.TOOLS, "bridge.py"),
            end,
            "--x25",
            support.PROGRAM,
            *words,
        ]
        child = subprocess.Popen(
            command,
            stdin=subprocess.PIPE,
            stdout=subprocess.PIPE,
            stderr=subprocess.PIPE,
            text=True,
        )
        # Whoever waits in vain for a notice comes to the end of them.
        timer = threading.Timer(SECONDS, child.kill)
        timer.daemon = True
        timer.start()
        self.addCleanup(timer.cancel)
        self.addCleanup(child.kill)
        return child

    def finish(self, *children):
        for child in children:
            child.kill()
            child.communicate(timeout=SECONDS)

    def test_a_call_over_pipes(self):
        (from_dce, to_dte), (from_dte, to_dce) = os.pipe(), os.pipe()
        dce_files, dce_told = self.by_files("dce", ANSWER)
        dte_files, dte_told = self.by_files("dte", OPENING + "dte send 1 0 6869\n")
        both = []
        for end, reader, writer, words in (
            ("dce", from_dte, to_dte, ["--quiet", "8", *dce_files]),
            ("dte", from_dce, to_dce, ["--quiet", "1", *dte_files]),
        ):
            command = [
                sys.executable,
                os.path.join(support.TOOLS, "bridge.py"),
                end,
                "--stdio",
                "--t1",
                "1",
                "--x25",
                support.PROGRAM,
                *words,
            ]
            both.append(
                subprocess.Popen(command, stdin=reader, stdout=writer, stderr=subprocess.PIPE)
            )
            self.addCleanup(both[-1].kill)
        for number in (from_dce, to_dte, from_dte, to_dce):
            os.close(number)
        for child in both:
            self.assertEqual((child.communicate(timeout=SECONDS)[1], child.returncode), (b"", 0))
        self.assert_call(self.told(dte_told), self.told(dce_told))

    @unittest.skipUnless(
        os.geteuid() == 0 and shutil.which("ip") and shutil.which("unshare"),
        "only root makes interfaces of Ethernet, by ip and unshare",
    )
    def test_a_call_over_ethernet(self):
        script = (
            "ip link add x0 type veth peer name x1 && ip link set x0 up && ip link set x1 up && "
        )
        bridge = (
            f"{sys.executable} {os.path.join(support.TOOLS, 'bridge.py')} --x25 {support.PROGRAM} "
            "--t1 1"
        )
        dce_files, dce_told = self.by_files("dce", ANSWER)
        dte_files, dte_told = self.by_files("dte", OPENING + "dte send 1 0 6869\n")
        script += (
            f"{{ {bridge} --ethernet x0 --quiet 3 {' '.join(dce_files)} dce & {bridge} --ethernet "
            f"x1 --quiet 1 {' '.join(dte_files)} dte; wait; }}"
        )
        done = subprocess.run(
            ["unshare", "-n", "sh", "-c", script], capture_output=True, timeout=SECONDS
        )
        self.assertEqual(done.returncode, 0, done.stderr)
        said = "bridge.py: {} has an MTU of 1500: packets of up to 1024 octets fit (size 10)"
        self.assertEqual(
            sorted(done.stderr.decode().splitlines()), [said.format(name) for name in ("x0", "x1")]
        )
        self.assert_call(self.told(dte_told), self.told(dce_told))

    def test_a_bridge_is_killed(self):
        """At each stage: while it listens or calls, while the link is set up, with a call, with
        messages under way; another one goes on."""
        dte, dce, words = self.joined("--t3", "1")
        for stage in range(4):
            with self.subTest(stage):
                if stage == 1:
                    self.asks(dte, "dte connect")
                elif stage == 2:
                    self.open_call(dte, dce)
                elif stage == 3:
                    self.open_call(dte, dce)
                    self.asks(
                        dte, *[f"dte send 1 0 {message('dte', number)}" for number in range(200)]
                    )
                    self.hears(dce, "dce message")
                self.finish(dte)
                dte = self.begin("dte", *words)
        self.open_call(dte, dce)
        port = words[words.index("--connect") + 1]
        self.finish(dce)
        again = self.begin("dce", "--listen", port, "--stay", "--t1", "0.3", "--n2", "5")
        self.hears(dte, "# the connection has ended")
        self.hears(dte, "dte linkdown")
        self.open_call(dte, again)
        self.finish(dte, again)

    def test_the_bridge_that_listens_is_killed(self):
        """With a call, without a link, with a link alone, with messages under way: the other one
        meets the next."""
        dte, dce, words = self.joined("--t3", "1")
        port = words[words.index("--connect") + 1]
        for stage in range(4):
            with self.subTest(stage):
                if stage == 2:
                    self.asks(dte, "dte connect", "wait dte restarted")
                    self.hears(dte, "dte restarted")
                elif stage == 3:
                    self.open_call(dte, dce)
                    self.asks(
                        dce, *[f"dce send 1 0 {message('dce', number)}" for number in range(200)]
                    )
                    self.hears(dte, "dte message")
                self.finish(dce)
                dce = self.begin("dce", "--listen", port, "--stay", "--t1", "0.3", "--n2", "5")
                dce.stderr.readline()
                self.hears_all(
                    dte,
                    "# the connection has ended",
                    "# connected to",
                    *["dte linkdown"][: stage != 1],
                )
        self.open_call(dte, dce)
        self.finish(dte, dce)

    def test_a_station_is_killed(self):
        dte, dce, _ = self.joined()
        with open(f"/proc/{dte.pid}/task/{dte.pid}/children") as file:
            os.kill(int(file.read().split()[0]), signal.SIGKILL)
        self.asks(dte, "dte send 1 0 41")
        _, said = dte.communicate(timeout=SECONDS)
        self.assertEqual((dte.returncode, said.count("\n")), (2, 1), said)
        self.hears(dce, "# the connection has ended")
        self.finish(dce)

    def test_a_line_that_dies_silently(self):
        """Nothing comes any more, and the connection stands: the poll isn't answered, and the link
        goes down."""
        dte, dce, _ = self.joined("--t3", "0.5")
        time.sleep(2)
        dce.send_signal(signal.SIGSTOP)
        # That is the next notice: what the bridge itself asks isn't told.
        self.assertEqual(dte.stdout.readline(), "dte linkdown retries\n")
        dce.send_signal(signal.SIGCONT)
        self.hears(dce, "dce linkdown")
        self.finish(dte, dce)

    @unittest.skipUnless(
        os.geteuid() == 0 and shutil.which("ip") and shutil.which("unshare"),
        "only root makes interfaces of Ethernet, by ip and unshare",
    )
    def test_an_interface_that_goes_down(self):
        """For some seconds, and one that is taken away and comes again; and calls whose packets
        don't fit."""
        bridge = (
            f"{sys.executable} -u {os.path.join(support.TOOLS, 'bridge.py')} --x25 "
            f"{support.PROGRAM} --t1 0.5 --n2 100 --stay"
        )
        make = (
            "ip link add x0 mtu 1000 type veth peer name x1 mtu 1000 && ip link set x0 up && ip "
            "link set x1 up"
        )
        script = f"""{make}
        ip link set x1 down
        mkfifo "$1/dte.in" "$1/dce.in"
        {bridge} --ethernet x0 dce <"$1/dce.in" >"$1/dce.out" 2>"$1/dce.err" & dce=$!
        {bridge} --ethernet x1 dte <"$1/dte.in" >"$1/dte.out" 2>"$1/dte.err" & dte=$!
        exec 3>"$1/dce.in" 4>"$1/dte.in"
        {bridge} --ethernet x9 dte && exit 1
        comes() {{
            for i in $(seq 300); do grep -q "$2" "$1" && return; sleep 0.1; done
            echo "no $2" >&2
            exit 1
        }}
        comes "$1/dte.out" 'x1 is down; waiting for it'
        ip link set x1 up
        printf 'dte connect\nwait dte restarted\ndte call 1 2 - 10 10 2 2\n' >&4
        printf 'dte with 0101 - d call 1 2 - 10 10 2 2\ndte call 1 2 - 9 9 2 2\n' >&4
        comes "$1/dce.out" incoming
        echo 'dce accept 1' >&3
        comes "$1/dte.out" connected
        ip link set x0 down
        comes "$1/dce.out" 'waiting for it'
        echo 'dte send 1 0 41' >&4
        sleep 1
        ip link set x0 up
        comes "$1/dce.out" 'x0 is up'
        comes "$1/dce.out" 'data=41$'
        ip link del x0
        comes "$1/dce.out" 'x0: .*waiting for it'
        comes "$1/dte.out" 'x1: .*waiting for it'
        {make}
        echo 'dte send 1 0 42' >&4
        comes "$1/dce.out" 'data=42$'
        kill $dce $dte
        wait
        """
        done = subprocess.run(
            ["unshare", "-n", "sh", "-c", script, "sh", self.folder],
            capture_output=True,
            timeout=SECONDS,
        )
        told = {
            name: support.read(os.path.join(self.folder, name)).decode()
            for name in ("dte.out", "dce.out", "dte.err", "dce.err")
        }
        self.assertEqual(
            (done.returncode, done.stderr), (0, b"bridge.py: x9: No such device\n"), told
        )
        self.assertEqual(
            told["dte.err"],
            "bridge.py: x1 has an MTU of 1000: packets of up to 512 octets fit (size 9)\n",
        )
        for command in ("dte call 1 2 - 10 10 2 2", "dte with 0101 - d call 1 2 - 10 10 2 2"):
            self.assertIn(
                "! 34\n# ! 34, packet sizes over 9 (512 octets) don't fit the line: "
                f"{command!r}\n",
                told["dte.out"],
            )


if __name__ == "__main__":
    unittest.main()
