"""The scripts by one name.

Each COMMAND is one of them, and COMMAND --help shows its words. Where they are installed, `x25
COMMAND` does the same.
"""

import importlib
import sys
from typing import NoReturn

from x25tools import x25lines

# By its command the module of a script, and what it does.
COMMANDS = {
    "dump": ("x25dump", "shows or judges a capture or a trace"),
    "report": ("x25report", "makes a page for a browser of a capture or a trace"),
    "convert": ("pcap2x25", "makes lines of a trace of a capture"),
    "pcap": ("x25pcap", "makes a capture of lines"),
    "chart": ("chart", "draws a sequence chart"),
    "losses": ("losses", "writes a random script"),
    "bridge": ("bridge", "joins a station to a line"),
    "pad": ("x25pad", "is a terminal at a host"),
}


def main() -> int:
    name = sys.argv[1] if len(sys.argv) > 1 else ""
    if name not in COMMANDS:
        rows = "".join(f"  {name:8} {what}\n" for name, (_, what) in COMMANDS.items())
        is_help = name in ("-h", "--help")
        (sys.stdout if is_help else sys.stderr).write(
            f"usage: x25tools COMMAND ..\n\n{__doc__}\n{rows}"
        )
        return 0 if is_help else 2
    sys.argv[:2] = [f"{sys.argv[0]} {name}"]
    status: int = importlib.import_module(f"x25tools.{COMMANDS[name][0]}").main()
    return status


def script() -> NoReturn:
    """What an installer gives a name."""
    x25lines.run(main)
