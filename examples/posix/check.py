#!/usr/bin/env python3
"""Runs the images of the kernels under three policies and three seeds, compares what each prints with what the same source
prints on the host, and replays each run's journal.

    check.py [--tilesim PROGRAM] [--tiles LIST] [--seeds N] [--jobs N] [--native]

Without --native the texts are those of the file kernels/expected; with it they are made anew by the host's cc.
"""

import argparse
import itertools
import subprocess
import sys
import tempfile
from concurrent.futures import ThreadPoolExecutor
from pathlib import Path
from typing import NamedTuple

HERE = Path(__file__).resolve().parent
KERNELS = HERE / "kernels"
TILESIM = HERE.parents[1] / "crates/tilesim/out/tilesim"
NAMES = ("fft", "lu", "radix", "ocean", "nbody", "black_scholes", "stream_cluster", "pool", "start")
LOCKS = ("test_and_set", "ticket", "mcs", "futex")
BARRIERS = ("none", "central", "dissemination", "tree", "futex")
POLICIES = ("lax", "barrier", "p2p")


class Case(NamedTuple):
    """A run of an image, and what it has to print."""

    image: str
    expected: str
    tiles: int
    policy: str
    seed: int


def native(name: str) -> str:
    """What a kernel prints on the host, on three threads."""
    with tempfile.TemporaryDirectory() as folder:
        program = Path(folder) / name
        words = ["cc", "-O2", "-ffp-contract=off", "-pthread", "-o", program, KERNELS / f"{name}.c", "-lm"]
        subprocess.run(words, check=True)
        return subprocess.run([program, "3"], capture_output=True, text=True, check=True).stdout


def expected(is_native: bool) -> dict[str, str]:
    """What each image has to print."""
    lines = (KERNELS / "expected").read_text().splitlines(keepends=True)
    texts = dict(zip(NAMES, lines, strict=True))
    if is_native:
        texts = {name: native(name) for name in NAMES}
    texts |= {f"lock_{name}": "locks count 512\n" for name in LOCKS}
    return texts | {f"barrier_{name}": "barriers rounds 16\n" for name in BARRIERS}


def failure(tilesim: Path, case: Case) -> str | None:
    """Runs a case and replays it; answers what is wrong, or nothing."""
    image = str(KERNELS / f"{case.image}.elf")
    with tempfile.TemporaryDirectory() as folder:
        settings, journal = Path(folder) / "settings", Path(folder) / "journal"
        settings.write_text(f'tiles = {case.tiles}\npolicy = "{case.policy}"\n')
        options = ["--config", str(settings), "--seed", str(case.seed)]
        words = [tilesim, "run", image, *options, "--journal", str(journal)]
        run = subprocess.run(words, capture_output=True, text=True, check=False)
        output, _, report = run.stdout.partition("== tilesim ==\n")
        if output != case.expected or not report.startswith("end: exit 0\n"):
            return f"{case}: status {run.returncode}, printed:\n{run.stdout}{run.stderr}"
        words = [tilesim, "replay", image, str(journal), *options]
        again = subprocess.run(words, capture_output=True, text=True, check=False)
        return None if again.stdout == run.stdout else f"{case}: the replay printed:\n{again.stdout}{again.stderr}"


def main() -> int:
    """Runs all cases; the status is 1 where one fails."""
    parser = argparse.ArgumentParser(description=__doc__, formatter_class=argparse.RawDescriptionHelpFormatter)
    parser.add_argument("--tilesim", type=Path, default=TILESIM, help="the simulator (default: %(default)s)")
    parser.add_argument("--tiles", default="1,4,16", help="numbers of tiles (default: %(default)s)")
    parser.add_argument("--seeds", type=int, default=3, help="how many seeds, from 1 on (default: %(default)s)")
    parser.add_argument("--jobs", type=int, default=2, help="runs at a time (default: %(default)s)")
    parser.add_argument("--native", action="store_true", help="make the expected texts anew, by cc")
    options = parser.parse_args()
    if not options.tilesim.is_file():
        parser.error(f"{options.tilesim} isn't there: build it by `rt run` in crates/tilesim, or give --tilesim")
    tiles = [int(word) for word in options.tiles.split(",")]
    todo = [
        Case(image, text, *choice)
        for image, text in expected(options.native).items()
        for choice in itertools.product(tiles, POLICIES, range(1, options.seeds + 1))
    ]
    with ThreadPoolExecutor(options.jobs) as pool:
        failures = [text for text in pool.map(lambda case: failure(options.tilesim.resolve(), case), todo) if text]
    for text in failures:
        print(text)
    print(f"{len(todo) - len(failures)} passed, {len(failures)} failed")
    return 1 if failures else 0


if __name__ == "__main__":
    sys.exit(main())
