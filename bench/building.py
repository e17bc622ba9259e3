"""Proves and builds a program that stands in `bench/`, over crates of a repository, in a folder of
its own under `build/`."""
import os
import shutil
import subprocess

TOP = os.path.dirname(os.path.dirname(os.path.abspath(__file__)))


def below(repository, name):
    """The crates of the repository that a crate stands on, and the crate itself, as lines of
    crates.txt, lowest first."""
    with open(os.path.join(repository, "crates.txt")) as lines:
        rows = {
            line.split(":")[0].split()[0]: line
            for line in lines
            if ":" in line and not line.startswith("#")
        }
    found, ahead = set(), [name]
    while ahead:
        crate = ahead.pop()
        if crate in rows and crate not in found:
            found.add(crate)
            ahead += rows[crate].partition(":")[2].split()
    return {crate: row for crate, row in rows.items() if crate in found}


def built(name, source, crate, words, repository=TOP):
    """Builds the program `source` over this crate and those below it, runs it once on the words,
    and returns its path.

    What checks left in the repository's crates is used.
    """
    folder = os.path.join(
        TOP, "build", name if repository == TOP else f"{name}-{os.path.basename(repository)}"
    )
    here = os.path.join(folder, "crates", name)
    rows = below(repository, crate)
    os.makedirs(os.path.join(here, "src"), exist_ok=True)
    subprocess.run(["git", "init", "-q", "."], cwd=folder, check=True)
    with open(os.path.join(folder, "crates.txt"), "w") as out:
        out.writelines([
            *rows.values(),
            f"{name}: {crate} x25_bits\n" if crate != "x25_bits" else f"{name}: {crate}\n",
        ])
    shutil.copy(os.path.join(TOP, "HANDLES"), folder)
    for low in rows:
        for part in ("src", "specs", "proofs", "out"):
            there = os.path.join(folder, "crates", low, part)
            shutil.rmtree(there, ignore_errors=True)
            if os.path.isdir(os.path.join(repository, "crates", low, part)):
                shutil.copytree(os.path.join(repository, "crates", low, part), there)
    # Its name ends in .txt, since the gate refuses Rattle files outside of the crates.
    shutil.copy(os.path.join(TOP, "bench", source), os.path.join(here, "src", "main.rt"))
    subprocess.run(["rt", "run", "--", *words], cwd=here, check=True)
    return os.path.join(here, "out", name)
