"""Linux's X.25 in a guest: its console's lines, and how it is booted."""

import re
import signal
import subprocess
import threading
import time

# What the guest's frames go to and come from: datagrams, each a frame of Ethernet.
NETWORK = (
    "dgram,id=n0,local.type=inet,local.host=127.0.0.1,local.port={},remote.type=inet,remote.host="
    "127.0.0.1,remote.port={}"
)
# The firmware clears the screen, on the line of the guest's first word.
ESCAPES = re.compile(r"\x1b(?:c|\[[?0-9;]*[A-Za-z])")


# What the kernel says where it has gone wrong; some of it it survives, but nothing that it does
# later tells much.
TROUBLE = re.compile(
    r"\bBUG: |\bOops\b|Kernel panic|self-detected stall|soft lockup|blocked for more than"
)


def is_trouble(line):
    """Whether a line of the console tells that the kernel has gone wrong."""
    return bool(TROUBLE.search(line))


class Talker:
    """A program that is told lines and says lines."""

    def __init__(self, name, command, is_shown):
        self.name, self._is_shown = name, is_shown
        self._child = subprocess.Popen(
            command,
            stdin=subprocess.PIPE,
            stdout=subprocess.PIPE,
            stderr=subprocess.STDOUT,
            text=True,
            errors="replace",
            bufsize=1,
        )
        self.said, self.has_ended = [], False
        self._changed = threading.Condition()
        self._thread = threading.Thread(target=self._listen, daemon=True)
        self._thread.start()

    def _listen(self):
        for line in self._child.stdout:
            line = ESCAPES.sub("", line).strip()
            if self._is_shown:
                print(f"{time.monotonic():.2f} {self.name}: {line[:120]}", flush=True)
            self.take(line)
        with self._changed:
            self.has_ended = True
            self._changed.notify_all()

    def take(self, line):
        """Takes a line that it says."""
        with self._changed:
            self.said.append(line)
            self._changed.notify_all()

    def tell(self, line):
        """Tells it a line."""
        try:
            self._child.stdin.write(line + "\n")
            self._child.stdin.flush()
        except BrokenPipeError as error:
            raise Missing(f"{self.name} has ended") from error

    def mark(self):
        """A place in what it says: `hear` looks after it."""
        return len(self.said)

    def hear(self, since, beginning, seconds, count=1):
        """The lines after a place that begin so, once there are so many; an error where they don't
        come."""
        last = time.monotonic() + seconds
        with self._changed:
            while True:
                found = [line for line in self.said[since:] if line.startswith(beginning)]
                if len(found) >= count:
                    return found
                left = last - time.monotonic()
                if left <= 0 or self.has_ended:
                    raise Missing(
                        f"{self.name} didn't say `{beginning}`"
                        + (f" {count} times" if count > 1 else "")
                        + f"; it said {[line[:60] for line in self.said[since:][-6:]]}"
                    )
                self._changed.wait(left)

    def memory(self):
        """How much memory it has, in kilobytes."""
        with open(f"/proc/{self._child.pid}/status") as file:
            return int(re.search(r"VmRSS:\s*(\d+)", file.read())[1])

    def stop(self):
        """Has it end, as from the keyboard."""
        self._child.send_signal(signal.SIGINT)
        self.end(10)

    def end(self, seconds):
        """Waits for its end, and ends it where it doesn't end."""
        try:
            self._child.stdin.close()
        except BrokenPipeError:
            pass
        try:
            self._child.wait(seconds)
        except subprocess.TimeoutExpired:
            self._child.terminate()
            self._child.wait()
        self._thread.join()
        self._child.stdout.close()


class Missing(Exception):
    """Something that had to be said wasn't."""


def boot(folder, local, remote):
    """The command that boots the guest of the folder that build.sh made; its network is the port
    `local` of this host, and sends to `remote`.

    What its kernel says of errors, and where these came from, stands on the console, too.
    """
    command = [
        "qemu-system-x86_64", "-M", "q35", "-accel", "tcg", "-m", "256", "-nographic", "-no-reboot"
    ]
    command += [
        "-kernel",
        f"{folder}/vmlinuz",
        "-initrd",
        f"{folder}/initrd.gz",
        "-append",
        "console=ttyS0 loglevel=5 panic=-1 no_timer_check",
    ]
    return command + [
        "-netdev",
        NETWORK.format(local, remote),
        "-device",
        "e1000,netdev=n0",
        "-serial",
        "mon:stdio",
    ]
