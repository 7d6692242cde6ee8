#!/usr/bin/env python3
"""Runs the built program over files of each kind, and prints a table: what a run took, and how it grows.

  measure.py PROGRAM [KIND..] [--workers N] [--rounds N]

Each kind is run at its own sizes, and with each size doubled, one at a time. A line has the best of the rounds in wall
clock, the peak memory, the time for each frame, job and message, and how many times as long it took as the kind's first
line. The launcher's own memory is a floor of the peak. Measure with nothing else running.
"""
import argparse
import os
import subprocess
import sys
import tempfile
import time

import make

COUNTED = ("frames", "systems", "types", "messages")


def once(words):
    """The wall clock in seconds, and the peak memory in KiB."""
    start = time.perf_counter()
    process = subprocess.Popen(words, stdin=subprocess.DEVNULL, stdout=subprocess.DEVNULL)
    _, status, used = os.wait4(process.pid, 0)
    process.returncode = os.waitstatus_to_exitcode(status)
    if process.returncode != 0:
        sys.exit(f"{' '.join(words)}: status {process.returncode}")
    return time.perf_counter() - start, used.ru_maxrss


def best(program, name, sizes, workers, rounds):
    with tempfile.NamedTemporaryFile(suffix=".json") as file:
        file.write(make.made(name, **sizes))
        file.flush()
        words = [program, "buffer", file.name] if name.startswith("calls") else [
            program, "run", file.name, "--workers", str(workers)]
        took = [once(words) for _ in range(rounds)]
    return min(seconds for seconds, _ in took), max(memory for _, memory in took)


def each(seconds, count):
    return f"{seconds * 1e6 / count:10.2f}" if count else f"{'':10}"


def line(name, sizes, seconds, memory, first):
    frames, systems = sizes.get("frames", 0), sizes.get("systems", 0)
    messages = sizes.get("messages", 0) * max(1, frames) * (systems if name == "writes" else 1)
    shown = " ".join(f"{sizes.get(key, '-'):>8}" for key in COUNTED)
    print(f"{name:10} {shown} | {seconds * 1e3:9.1f} {memory / 1024:8.1f} | {each(seconds, frames)} "
          f"{each(seconds, frames * systems)} {each(seconds, messages)} | {seconds / first:6.2f}", flush=True)


def main():
    words = argparse.ArgumentParser(description="Measures the built program.")
    words.add_argument("program")
    words.add_argument("kinds", nargs="*", default=list(make.BY_NAME))
    words.add_argument("--workers", type=int, default=1)
    words.add_argument("--rounds", type=int, default=5)
    given = words.parse_args()
    heads = " ".join(f"{key:>8}" for key in COUNTED)
    print(f"{'kind':10} {heads} | {'ms':>9} {'MiB':>8} | {'us/frame':>10} {'us/job':>10} {'us/message':>10} | {'times':>6}")
    for name in given.kinds:
        base = make.KINDS[make.BY_NAME[name]]
        first = None
        for doubled in [None, *base]:
            sizes = {key: n * (2 if key == doubled else 1) for key, n in base.items()}
            seconds, memory = best(given.program, name, sizes, given.workers, given.rounds)
            first = first or seconds
            line(name, sizes, seconds, memory, first)


if __name__ == "__main__":
    main()
