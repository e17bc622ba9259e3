#!/usr/bin/env python3
"""Compiles the programs of tests/c over libx25.a, and runs them.

    check_c.py [--library FOLDER] [--calls N]

`main` has to print what `crates/x25_embed` does; `refused` refuses each allocation of a call in
turn, and makes the calls again; `random` makes calls of all kinds in any order, N of them,
1,000,000 where N isn't given; `threads` has stations go from thread to thread; `memory` says how
much a station takes. Each is compiled as C11 with all warnings, and run as it is, under the
address and the undefined-behaviour sanitizer and under that of threads, where the compiler has
these, and under valgrind where that is there. The header has to be one of C from C99 on and of C++
from C++11 on, as far as the compilers know these.

It needs a C compiler, `cc`, and what `make lib` leaves. Exit status: 0 all is so, 1 something
isn't, 2 there is no library or no compiler.
"""

import argparse
import os
import shutil
import subprocess
import sys
import tempfile

from program import ROOT, find_library

INCLUDE = os.path.join(ROOT, "include")
SOURCES = os.path.join(ROOT, "tests", "c")
STRICT = ["-std=c11", "-Wall", "-Wextra", "-Werror", "-O1", "-g"]
SANITIZERS = ["-fsanitize=address,undefined", "-fno-sanitize-recover=all"]
OF_THREADS = ["-fsanitize=thread"]
PEDANTIC = ["-Wall", "-Wextra", "-pedantic", "-Werror"]
STANDARDS = {
    "cc": ("c", "c99", "c11", "c17", "c2x"), "c++": ("c++", "c++11", "c++14", "c++17", "c++20")
}
VALGRIND = ["valgrind", "-q", "--error-exitcode=9", "--leak-check=full", "--show-leak-kinds=all"]
CALLS = 1_000_000


def compiled(name, library, folder, *flags):
    """The path of a program of tests/c, compiled over the library in a folder."""
    path = os.path.join(folder, name)
    wrapped = {
        "refused": ["-Wl,--wrap=malloc,--wrap=realloc"],
        "memory": ["-Wl,--wrap=malloc,--wrap=realloc,--wrap=free"],
    }.get(name, [])
    source = os.path.join(SOURCES, f"{name}.c")
    subprocess.run(
        ["cc", *STRICT, *flags, f"-I{INCLUDE}", source, library, "-pthread", *wrapped, "-o", path],
        check=True,
    )
    return path


def has_sanitizers(folder, flags):
    """Whether a program can be compiled with some sanitizers, and runs."""
    source, path = os.path.join(folder, "empty.c"), os.path.join(folder, "empty")
    with open(source, "w") as file:
        file.write("int main(void) { return 0; }\n")
    done = subprocess.run(["cc", *flags, source, "-o", path], capture_output=True)
    return done.returncode == 0 and subprocess.run([path], capture_output=True).returncode == 0


def ways(folder):
    """The ways in which the programs are run here: a name, flags of the compiler, what stands
    before the program, and how many times fewer random calls are made."""
    found = [("as it is", [], [], 1)]
    if has_sanitizers(folder, SANITIZERS):
        found.append(("under the sanitizers", SANITIZERS, [], 10))
    if has_sanitizers(folder, OF_THREADS):
        found.append(("under that of threads", OF_THREADS, [], 10))
    if shutil.which("valgrind"):
        found.append(("under valgrind", [], VALGRIND, 200))
    return found


def runs_of(calls):
    """The runs: a name of a program, its words, and what it has to print, or None for anything."""
    with open(os.path.join(ROOT, "crates", "x25_embed", "stdout")) as file:
        told = file.read()
    randoms = (("random", [str(seed), str(calls // 4)], None) for seed in range(1, 5))
    return [
        ("main", [], told),
        ("refused", [], None),
        ("threads", [], None),
        ("memory", [], None),
        *randoms,
    ]


def headers():
    """Compiles the header by each standard that the compilers know; says each, and answers how
    many don't take it."""
    wrong = 0
    for compiler, (language, *standards) in STANDARDS.items():
        for standard in standards if shutil.which(compiler) else ():
            words = [compiler, f"-std={standard}", "-fsyntax-only", "-x", language]
            if subprocess.run([*words, os.devnull], capture_output=True).returncode == 0:
                done = subprocess.run(
                    [*words, *PEDANTIC, os.path.join(INCLUDE, "x25.h")],
                    capture_output=True,
                    text=True,
                )
                wrong += done.returncode != 0
                print(f"the header as {standard}: {done.stderr or 'good'}")
    return wrong


def run(library, calls=CALLS):
    """Compiles and runs all, and says what each printed; answers how many runs went wrong."""
    wrong = 0
    with tempfile.TemporaryDirectory() as folder:
        for way, flags, before, fewer in ways(folder):
            programs = {
                name: compiled(name, library, folder, *flags)
                for name in ("main", "refused", "threads", "memory", "random")
            }
            for name, words, wanted in runs_of(calls // fewer):
                done = subprocess.run(
                    [*before, programs[name], *words], capture_output=True, text=True
                )
                good = done.returncode == 0 and not done.stderr and wanted in (None, done.stdout)
                wrong += not good
                said = "as crates/x25_embed" if wanted == done.stdout else done.stdout.strip()
                print(
                    f"{name} {way}: {said}"
                    if good
                    else f"{name} {way} WENT WRONG: {done.returncode}\n{done.stdout}{done.stderr}"
                )
    return wrong + headers()


def main():
    parser = argparse.ArgumentParser(
        description=__doc__, formatter_class=argparse.RawDescriptionHelpFormatter
    )
    parser.add_argument("--library", metavar="FOLDER")
    parser.add_argument("--calls", type=int, default=CALLS, metavar="N")
    words = parser.parse_args()
    if words.library:
        os.environ["X25_LIBRARY"] = words.library
    library = find_library("a")
    if not library or not shutil.which("cc"):
        print(
            "There is no C compiler cc."
            if library
            else "There is no libx25.a: make lib leaves it.",
            file=sys.stderr,
        )
        return 2
    return 1 if run(library, words.calls) else 0


if __name__ == "__main__":
    sys.exit(main())
