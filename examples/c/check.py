#!/usr/bin/env python3
"""Runs the images of the examples under many settings and seeds, and compares what each prints with the file
`expected` in its folder. Their output is the same in all of them.

    check.py [--tilesim PROGRAM] [--seeds N] [--jobs N]
"""

import argparse
import itertools
import os
import subprocess
import sys
import tempfile
from concurrent.futures import ThreadPoolExecutor
from dataclasses import dataclass
from pathlib import Path

HERE = Path(__file__).resolve().parent
TILESIM = HERE.parent.parent / "crates/tilesim/out/tilesim"

# The images, and the fewest tiles that each needs.
IMAGES = {
    "parallel_sum/parallel_sum.elf": 1,
    "mutex_counter/mutex_counter.elf": 1,
    "barrier_phases/barrier_phases.elf": 4,
    "producer_consumer/producer_consumer.elf": 4,
    "litmus/litmus.elf": 4,
    "false_sharing/packed.elf": 4,
    "false_sharing/padded.elf": 4,
    "matrix_product/in_turn.elf": 1,
    "matrix_product/blocked.elf": 1,
}
TILES = (2, 4, 16)
POLICIES = (
    'policy = "lax"',
    'policy = "barrier"\nquantum = 200',
    'policy = "p2p"\nslack = 200\ninterval = 100',
)
CACHES = ("", "sets = 1\nways = 1")


@dataclass(frozen=True)
class Case:
    """A run of an image under settings, the text of a settings file."""

    image: str
    settings: str
    seed: int


def cases(seeds: int) -> list[Case]:
    """The file of each example, and then every choice of tiles, policy and cache, under each seed."""
    found = []
    for image, least in IMAGES.items():
        texts = [(HERE / image).with_name("settings.toml").read_text()]
        for tiles, policy, cache in itertools.product(TILES, POLICIES, CACHES):
            if tiles >= least:
                texts.append(f"tiles = {tiles}\n{policy}\n{cache}\n")
        found += [Case(image, text, seed) for text in texts for seed in range(1, seeds + 1)]
    return found


def failure(tilesim: Path, case: Case) -> str | None:
    """Runs a case; answers what is wrong, or nothing."""
    with tempfile.NamedTemporaryFile("w", suffix=".toml") as settings:
        settings.write(case.settings)
        settings.flush()
        words = ["run", str(HERE / case.image), "--config", settings.name, "--seed", str(case.seed)]
        run = subprocess.run([tilesim, *words], capture_output=True, text=True, check=False)
    expected = (HERE / case.image).with_name("expected").read_text()
    output, _, report = run.stdout.partition("== tilesim ==\n")
    if output == expected and report.startswith("end: exit 0\n"):
        return None
    lines = case.settings.replace("\n", "  ")
    return f"{case.image}, seed {case.seed}, under {lines}\nprinted, with status {run.returncode}:\n{run.stdout}"


def main() -> int:
    """Runs all cases, side by side; the status is 1 where one fails."""
    parser = argparse.ArgumentParser(description=__doc__, formatter_class=argparse.RawDescriptionHelpFormatter)
    parser.add_argument("--tilesim", type=Path, default=TILESIM, help="the simulator (default: %(default)s)")
    parser.add_argument("--seeds", type=int, default=3, help="how many seeds, from 1 on (default: %(default)s)")
    parser.add_argument("--jobs", type=int, default=os.cpu_count(), help="how many runs at a time")
    options = parser.parse_args()
    if not options.tilesim.is_file():
        parser.error(f"{options.tilesim} isn't there: build it by `rt run` in crates/tilesim, or give --tilesim")
    tilesim = options.tilesim.resolve()
    todo = cases(options.seeds)
    with ThreadPoolExecutor(options.jobs) as pool:
        failures = [text for text in pool.map(lambda case: failure(tilesim, case), todo) if text]
    for text in failures:
        print(text)
    print(f"{len(todo) - len(failures)} passed, {len(failures)} failed")
    return 1 if failures else 0


if __name__ == "__main__":
    sys.exit(main())
