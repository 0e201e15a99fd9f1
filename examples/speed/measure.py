#!/usr/bin/env python3
"""Measures how fast tilesim runs three programs of one thread, beside plain.c, a plain interpreter.

    measure.py [--tilesim PROGRAM] [--reps N]

Each image is run by `tilesim run IMAGE`, so under the default settings: seed 1 and four tiles, three of them idle.
plain.c is compiled by the host's C compiler with -O2, and runs the same images. Both have to print what the program
is meant to print, and to execute exactly as many instructions. The runs take turns, since a machine's clock drifts. A
time is the best of N, less the best of an image that exits at once. The ratio is the time for an instruction under
tilesim, divided by that under plain.c.

Without a C compiler for the host (cc or gcc), or without tilesim, nothing is measured, and the status is 0.
"""

import argparse
import re
import shutil
import subprocess
import sys
import tempfile
import time
from dataclasses import dataclass
from pathlib import Path

HERE = Path(__file__).resolve().parent
TILESIM = HERE.parents[1] / "crates/tilesim/out/tilesim"

# The image that exits at once; and those that are measured, with the texts that they print.
EXIT = "exit"
PROGRAMS = {
    "life": "alive 175\nchecksum 18294142026711630869\n",
    "sha256": "fab31b2746e4041c110573147a0effca3a9f6cfe08075c7ec8ef15eac1ad4323\n",
    "heapsort": "ascents 2047\nchecksum 1464729581902251648\n",
}


@dataclass(frozen=True)
class Run:
    """What a run printed and counted, and how long it took. plain.c counts no events."""

    text: str
    instructions: int
    events: int
    seconds: float


def timed(words: list[str | Path]) -> tuple[subprocess.CompletedProcess[str], float]:
    """Runs a command; answers what it did, and how many seconds it took."""
    begin = time.perf_counter()
    done = subprocess.run(words, capture_output=True, text=True, check=False)
    return done, time.perf_counter() - begin


def run_tilesim(tilesim: Path, name: str) -> Run:
    """Runs an image under tilesim."""
    done, seconds = timed([tilesim, "run", HERE / f"{name}.elf"])
    text, _, report = done.stdout.rpartition("== tilesim ==\n")
    counts = re.search(r"\Aend: exit 0\nevents: (\d+)\n(?:tile .*\n)*total: instr (\d+) ", report)
    if counts is None:
        sys.exit(f"{name}: tilesim reports no exit, with status {done.returncode}:\n{done.stdout}{done.stderr}")
    return Run(text, int(counts[2]), int(counts[1]), seconds)


def run_plain(plain: Path, name: str) -> Run:
    """Runs an image under plain.c."""
    done, seconds = timed([plain, HERE / f"{name}.elf"])
    count = re.fullmatch(r"instr (\d+)\n", done.stderr)
    if count is None or done.returncode != 0:
        sys.exit(f"{name}: plain.c fails, with status {done.returncode}:\n{done.stdout}{done.stderr}")
    return Run(done.stdout, int(count[1]), 0, seconds)


def check(name: str, tilesim: Run, plain: Run) -> None:
    """Ends the script where the two didn't run the same program to the same end."""
    for who, run in (("tilesim", tilesim), ("plain.c", plain)):
        if run.text != PROGRAMS.get(name, ""):
            sys.exit(f"{name}: {who} prints\n{run.text}")
    if tilesim.instructions != plain.instructions:
        sys.exit(f"{name}: {tilesim.instructions} instructions under tilesim, {plain.instructions} under plain.c")


def faster(one: Run, other: Run) -> Run:
    """The one of two runs that took less time."""
    return min(one, other, key=lambda run: run.seconds)


def measure(tilesim: Path, plain: Path, reps: int) -> dict[str, tuple[Run, Run]]:
    """The fastest run of each image under tilesim and under plain.c. All images are run before the next turn."""
    best: dict[str, tuple[Run, Run]] = {}
    for _ in range(reps):
        for name in (EXIT, *PROGRAMS):
            runs = run_tilesim(tilesim, name), run_plain(plain, name)
            check(name, *runs)
            before = best.get(name, runs)
            best[name] = faster(before[0], runs[0]), faster(before[1], runs[1])
    return best


def row(name: str, runs: tuple[Run, Run], rest: tuple[Run, Run]) -> list[str]:
    """A program's line of the table, of its runs and those that exit at once."""
    tilesim, plain = (run.seconds - short.seconds for run, short in zip(runs, rest))
    if min(tilesim, plain) <= 0:
        sys.exit(f"{name}: it took no longer than an image that exits at once; give more --reps")
    events, instructions = runs[0].events, runs[0].instructions
    rates = (events / tilesim, instructions / tilesim, instructions / plain)
    counts = [f"{instructions:,}", f"{events:,}"]
    return [name, *counts, *(f"{rate:,.0f}" for rate in rates), f"{tilesim / plain:.1f}"]


def print_table(best: dict[str, tuple[Run, Run]], reps: int) -> None:
    """What was measured, for people."""
    rest = best[EXIT]
    tilesim, plain = (f"{run.seconds * 1000:.1f} ms" for run in rest)
    print(f"`tilesim run IMAGE` under the default settings, and plain.c compiled with -O2: the best of {reps}, less")
    print(f"that of an image that exits at once, {tilesim} under tilesim and {plain} under plain.c.\n")
    table = [
        ["", "", "", "tilesim", "tilesim", "plain.c", ""],
        ["program", "instructions", "events", "events/s", "instr/s", "instr/s", "ratio"],
        *(row(name, best[name], rest) for name in PROGRAMS),
    ]
    for cells in table:
        line = f"{cells[0]:<8}" + "".join(f"{cell:>14}" for cell in cells[1:6]) + f"{cells[6]:>8}"
        print(line.rstrip())
    print("\nratio: the time for an instruction under tilesim, divided by that under plain.c")


def main() -> None:
    """Makes plain.c, measures, and prints the table."""
    parser = argparse.ArgumentParser(description=__doc__, formatter_class=argparse.RawDescriptionHelpFormatter)
    parser.add_argument("--tilesim", type=Path, default=TILESIM, help="the simulator (default: %(default)s)")
    parser.add_argument("--reps", type=int, default=10, help="runs of each image (default: %(default)s)")
    options = parser.parse_args()
    if options.reps < 1:
        parser.error("--reps is at least 1")
    compiler = shutil.which("cc") or shutil.which("gcc")
    if compiler is None:
        print("skipped: there is no C compiler for the host, cc or gcc")
        return
    if not options.tilesim.is_file():
        print(f"skipped: {options.tilesim} isn't there: build it by `rt run` in crates/tilesim, or give --tilesim")
        return
    with tempfile.TemporaryDirectory() as folder:
        plain = Path(folder) / "plain"
        if subprocess.run([compiler, "-O2", "-o", plain, HERE / "plain.c"], check=False).returncode != 0:
            sys.exit(f"{compiler} doesn't compile plain.c")
        best = measure(options.tilesim.resolve(), plain, options.reps)
    print_table(best, options.reps)


if __name__ == "__main__":
    main()
