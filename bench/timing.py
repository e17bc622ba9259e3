"""Runs a program and says what it used: processor time, time on the clock and peak memory; or how
often it takes memory."""
import os
import re
import shutil
import subprocess
import sys
import time


def peak_memory(pid):
    """The most memory that the process has held, in kB, or 0 where it has ended."""
    try:
        with open(f"/proc/{pid}/status") as status:
            return next((int(line.split()[1]) for line in status if line.startswith("VmHWM")), 0)
    except OSError:
        return 0


def timed(words, file, statuses=(0,)):
    """Runs the words on the file: the seconds of processor time, those on the clock, and the peak
    memory in kB."""
    file.seek(0)
    start = time.perf_counter()
    child = subprocess.Popen(
        words, stdin=file, stdout=subprocess.DEVNULL, stderr=subprocess.DEVNULL
    )
    peak = 0
    while True:
        peak = max(peak, peak_memory(child.pid))
        ended, status, used = os.wait4(child.pid, os.WNOHANG)
        if ended:
            break
        time.sleep(0.002)
    child.returncode = os.waitstatus_to_exitcode(status)
    if child.returncode not in statuses:
        sys.exit(f"{words[0]} ended with status {child.returncode}")
    return used.ru_utime + used.ru_stime, time.perf_counter() - start, peak


def processor_time(words):
    """The seconds of a processor that a run of the words takes."""
    child = subprocess.Popen(words, stdout=subprocess.DEVNULL)
    _, status, used = os.wait4(child.pid, 0)
    child.returncode = os.waitstatus_to_exitcode(status)
    if child.returncode:
        sys.exit(f"{words[0]} ended with status {child.returncode}")
    return used.ru_utime + used.ru_stime


def allocations(words, given=b"", statuses=(0,)):
    """How often a run of the words on these octets takes memory, by valgrind."""
    done = subprocess.run(
        ["valgrind", *words], input=given, stdout=subprocess.DEVNULL, stderr=subprocess.PIPE
    )
    if done.returncode not in statuses:
        sys.exit(f"{words[0]} ended with status {done.returncode}")
    return int(
        re.search(rb"total heap usage: ([\d,]+) allocs", done.stderr).group(1).replace(b",", b"")
    )


def instructions(words, given=subprocess.DEVNULL, statuses=(0,)):
    """How many instructions a run of the words takes on this file, by callgrind."""
    done = subprocess.run(
        ["valgrind", "--tool=callgrind", "--callgrind-out-file=/dev/null", *words],
        stdin=given,
        stdout=subprocess.DEVNULL,
        stderr=subprocess.PIPE,
    )
    if done.returncode not in statuses:
        sys.exit(f"{words[0]} ended with status {done.returncode}")
    return int(re.search(rb"Collected : (\d+)", done.stderr).group(1))


def rates(program, thing, count):
    """Runs a program that is given a count and a length, and says how many things go through in a
    second, and what each takes."""
    for length in (3, 128, 1024):
        start = time.perf_counter()
        subprocess.run([program, str(count), str(length)], stdout=subprocess.DEVNULL, check=True)
        seconds = time.perf_counter() - start
        line = f"{thing}s of {length} octets: {count / seconds:,.0f} a second"
        if shutil.which("valgrind"):
            few, many = ([program, str(things), str(length)] for things in (1000, 2000))
            line += f", {(allocations(many) - allocations(few)) / 1000:.1f} allocations"
            line += (
                f" and {(instructions(many) - instructions(few)) / 1000:,.0f} instructions a "
                f"{thing}"
            )
        print(line)
