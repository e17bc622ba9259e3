#!/usr/bin/env python3
"""Plays a tunnel of examples/ at each end of a relay that loses datagrams, with clients that send
octets to an echo and get them back.

    tunnels.py NEAR FAR [--loss PERCENT] [--clients N] [--octets N] [--seed N]
    tunnels.py --moments TUNNEL

NEAR, FAR and TUNNEL are commands, as 'python3 examples/python/tunnel.py'. A client ends what it
sends and reads to the end; the exit status is 0 where each has got its own octets back, and 1
else. With --moments the other end is that of Python in this process. It resets, clears, restarts,
sets the link up anew, or begins anew after each number of frames: a client and the server have
then read a beginning of what was sent, and an error, or all and no error.
"""

import argparse
import contextlib
import os
import random
import select
import shlex
import socket
import subprocess
import sys
import threading
import time
from collections import Counter

SECONDS = 120
ROOT = os.path.dirname(os.path.dirname(os.path.abspath(__file__)))
FOLDERS = os.path.join(ROOT, "examples", "python"), os.path.join(ROOT, "bindings", "python")


def free_ports(count, kind=socket.SOCK_DGRAM):
    """Ports of UDP, or of TCP, that nobody has."""
    made = [socket.socket(socket.AF_INET, kind) for _ in range(count)]
    for one in made:
        one.bind(("127.0.0.1", 0))
    ports = [one.getsockname()[1] for one in made]
    for one in made:
        one.close()
    return ports


def relay(near, far, ends, loss, seed, is_over):
    """Passes datagrams on from each port to the end behind the other, but for those that it loses,
    until it is over."""
    draw = random.Random(seed).random
    with socket.socket(socket.AF_INET, socket.SOCK_DGRAM) as one, socket.socket(
        socket.AF_INET, socket.SOCK_DGRAM
    ) as other:
        sides = one, other
        for side, port in zip(sides, (near, far)):
            side.bind(("127.0.0.1", port))
        while not is_over.is_set():
            for side in select.select(sides, [], [], 0.1)[0]:
                octets, there = side.recv(1 << 16), sides.index(side) ^ 1
                if draw() >= loss:
                    sides[there].sendto(octets, ("127.0.0.1", ends[there]))


def echo(server):
    """Gives each client of a server its octets back, and ends after it, until the server is
    closed."""

    def serve(client):
        with client:
            while octets := client.recv(1 << 16):
                client.sendall(octets)

    with contextlib.suppress(OSError):
        while True:
            threading.Thread(target=serve, args=(server.accept()[0],), daemon=True).start()


def read_to_end(one):
    """What comes, and whether it ended by an error."""
    come = b""
    try:
        while more := one.recv(1 << 16):
            come += more
        return come, False
    except ConnectionError:
        return come, True


def exchange(port, octets, seconds=SECONDS):
    """Sends octets, while what comes is read to its end; answers that, and whether it ended by an
    error."""
    errors = []
    with connected(port, seconds) as one:

        def send():
            try:
                one.sendall(octets)
                one.shutdown(socket.SHUT_WR)
            except OSError as error:  # it is told to one of the two threads alone
                errors.append(error)

        sender = threading.Thread(target=send, daemon=True)
        sender.start()
        come, is_error = read_to_end(one)
        sender.join(seconds)
        return come, is_error or bool(errors)


def connected(port, seconds):
    """A connection to a port, as soon as someone listens there."""
    limit = time.monotonic() + seconds
    while True:
        one = socket.socket()
        one.settimeout(seconds)
        if one.connect_ex(("127.0.0.1", port)) == 0:
            return one
        one.close()
        if time.monotonic() > limit:
            raise TimeoutError(port)
        time.sleep(0.02)


def client(port, octets, got):
    """Notes whether octets come back, and no error."""
    got.append(exchange(port, octets) == (octets, False))


def run(near, far, loss=0.1, clients=16, octets=20_000, seed=1):
    """Runs two tunnels, two lists of words; answers how many clients got back what they sent."""
    draw, got, is_over = random.Random(seed), [], threading.Event()
    with socket.create_server(("127.0.0.1", 0), backlog=clients) as server:
        a, b, at_a, at_b = free_ports(4)
        port, = free_ports(1, socket.SOCK_STREAM)
        line = threading.Thread(target=relay, args=(at_a, at_b, (a, b), loss, seed, is_over))
        line.start()
        threading.Thread(target=echo, args=(server,), daemon=True).start()
        serves = server.getsockname()[1]
        commands = (
            [*far, "dce", str(b), str(at_b), "connect", str(serves)],
            [*near, "dte", str(a), str(at_a), "listen", str(port)],
        )
        children = [subprocess.Popen(command) for command in commands]
        threads = [
            threading.Thread(target=client, args=(port, draw.randbytes(octets), got), daemon=True)
            for _ in range(clients)
        ]
        for thread in threads:
            thread.start()
        for thread in threads:
            thread.join(SECONDS)
        ended = [stop(child) for child in children]
        is_over.set()
        line.join()
        server.shutdown(socket.SHUT_RDWR)
    return got.count(True) if ended == [0, 0] else 0


def stop(child):
    """Ends a tunnel as an init does; answers its exit status."""
    child.terminate()
    try:
        return child.wait(SECONDS)
    except subprocess.TimeoutExpired:
        child.kill()
        return child.wait()


def acting():
    """The tunnel of Python, as one that does something once it has received so many frames."""
    sys.path[:0] = FOLDERS
    import tunnel

    tunnel.MOST_WAIT = 20

    class Acting(tunnel.Tunnel):
        left, act, is_deaf = 0, None, False

        def note(self, event):
            if not (self.is_deaf and event.kind == tunnel.Kind.RESET_DONE):
                super().note(event)

        def did(self, call, *words):
            answer = super().did(call, *words)
            if call == self.station.receive and self.left:
                self.left -= 1
                if not self.left:
                    self.act(self)
            return answer

    return Acting


def on_each_call(name):
    """What asks for something on each channel where a call is."""

    def act(tunnel):
        for channel, circuit in tunnel.circuits.items():
            if circuit.state != "free":
                tunnel.did(getattr(tunnel.station, name), channel, 0, 5)

    return act


def begin_anew(tunnel):
    """Another station stands in the place of this one, as where its program is started again."""
    for circuit in tunnel.circuits.values():
        circuit.leave("free")
    tunnel.begin()


ACTS = {
    "nothing": lambda tunnel: None,
    "reset": on_each_call("reset"),
    "reset, and go on": on_each_call("reset"),
    "clear": on_each_call("clear"),
    "restart": lambda tunnel: tunnel.did(tunnel.station.restart),
    "relink": lambda tunnel: tunnel.did(tunnel.station.relink),
    "begin anew": begin_anew,
}


def moments(command, end, manner, octets=6000, most=30, seconds=20):
    """Plays a tunnel, of the words of a command, against one that does each of ACTS after each
    number of frames. Answers what went wrong, and how many exchanges were whole and how many ended
    by an error, of each act."""
    wrong, counts = [], {}
    # the same each time: what the server reads may be of the exchange before
    octets = random.Random(octets).randbytes(octets)
    with socket.create_server(("127.0.0.1", 0)) as server:
        a, b = free_ports(2)
        port, = free_ports(1, socket.SOCK_STREAM)
        at_near, at_far = ("listen", port), ("connect", server.getsockname()[1])
        if manner == "connect":
            at_near, at_far = at_far, at_near
        far = acting()("dce" if end == "dte" else "dte", b, a, *at_far)
        child = subprocess.Popen([*command, end, str(a), str(b), at_near[0], str(at_near[1])])
        try:
            for name, act in ACTS.items():
                counts[name] = Counter()
                for moment in range(1, most + 1) if name != "nothing" else [0]:
                    far.act, far.left, far.is_deaf = act, moment, name == "reset, and go on"
                    ends = one_exchange(far, server, port, octets, seconds)
                    wrong += [(name, moment, what) for what in ends if isinstance(what, str)]
                    counts[name].update(ends)
            return wrong, counts, stop(child)
        finally:
            child.kill()
            child.wait()
            far.station.close()
            for one in far.line, far.listener:
                if one:
                    one.close()


def one_exchange(far, server, port, octets, seconds):
    """A client sends octets to the server, which gives them back. Answers how each of the two
    ended: whether by an error, or what was wrong."""
    ends, is_over = [], threading.Event()

    def judge(who, come, is_error):
        if come != octets[: len(come)] or (not is_error and come != octets):
            ends.append(
                f"{who}: {len(come)} of {len(octets)} octets, "
                f"{'an error' if is_error else 'no error'}"
            )
        else:
            ends.append(is_error)

    def serve():
        while not is_over.is_set():
            try:
                one, _ = server.accept()
            except TimeoutError:
                continue
            with one, contextlib.suppress(OSError):
                one.settimeout(seconds)
                come, is_error = read_to_end(one)
                judge("the server", come, is_error)
                if not is_error:
                    one.sendall(come)

    def ask():
        try:
            judge("the client", *exchange(port, octets, seconds))
        except OSError as error:
            ends.append(f"the client: {error!r}")

    server.settimeout(0.05)
    threads = [threading.Thread(target=target, daemon=True) for target in (serve, ask)]
    for thread in threads:
        thread.start()
    while threads[1].is_alive():
        far.turn()
    is_over.set()
    while threads[0].is_alive():
        far.turn()
    return ends


def main():
    parser = argparse.ArgumentParser(
        description=__doc__, formatter_class=argparse.RawDescriptionHelpFormatter
    )
    parser.add_argument("near", metavar="NEAR")
    parser.add_argument("far", metavar="FAR", nargs="?")
    parser.add_argument("--moments", action="store_true")
    parser.add_argument("--loss", type=int, default=10, metavar="PERCENT")
    parser.add_argument("--clients", type=int, default=16, metavar="N")
    parser.add_argument("--octets", type=int, default=20_000, metavar="N")
    parser.add_argument("--seed", type=int, default=1, metavar="N")
    words = parser.parse_args()
    begun = time.monotonic()
    if words.moments:
        bad = 0
        for end, manner in (
            ("dte", "listen"), ("dce", "listen"), ("dte", "connect"), ("dce", "connect")
        ):
            wrong, counts, status = moments(shlex.split(words.near), end, manner)
            bad += len(wrong) + (status != 0)
            said = ", ".join(
                f"{name} {count[False]} whole {count[True]} by an error"
                for name, count in counts.items()
            )
            print(
                f"{end} {manner}: {said}; wrong {wrong}, status {status}, "
                f"{time.monotonic() - begun:.1f} s"
            )
        return 1 if bad else 0
    good = run(
        shlex.split(words.near),
        shlex.split(words.far),
        words.loss / 100,
        words.clients,
        words.octets,
        words.seed,
    )
    print(
        f"{good} of {words.clients} clients got their {words.octets} octets back, "
        f"{time.monotonic() - begun:.1f} s"
    )
    return 0 if good == words.clients else 1


if __name__ == "__main__":
    sys.exit(main())
