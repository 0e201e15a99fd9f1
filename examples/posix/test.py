#!/usr/bin/env python3
"""Tests of tilecc and of the glue: bad words, what is refused by its name, a missing package, the images that are kept, and
tests/threads.c under three policies and several numbers of tiles.

    test.py [--tilesim PROGRAM]
"""

import argparse
import os
import subprocess
import sys
import tempfile
from pathlib import Path

HERE = Path(__file__).resolve().parent
TILESIM = HERE.parents[1] / "crates/tilesim/out/tilesim"
PARTS = """threads
attributes
mutexes
condition variables
barriers
locks for readers and writers
spin locks, once, keys
clean-ups
reuse
semaphores
memory
files  1.50
the end
"""

failed = []


def expect(name: str, is_met: bool, told: object = "") -> None:
    """Notes what isn't as it should be."""
    if not is_met:
        failed.append(name)
        print(f"failed: {name}: {told}")


def tilecc(*words: object, path: str | None = None) -> subprocess.CompletedProcess[str]:
    """Calls tilecc."""
    environment = os.environ | ({"PATH": path} if path is not None else {})
    command = [sys.executable, HERE / "tilecc", *map(str, words)]
    return subprocess.run(command, capture_output=True, text=True, check=False, env=environment)


def test_words(folder: Path) -> None:
    """Bad words are refused with one line."""
    for words, told in (
        (["--threads", "0"], "--threads wants a number from 1 to 64, not '0'"),
        (["--threads", "x"], "not 'x'"),
        (["--threads"], "--threads wants a value"),
        (["--stack-bytes", "1"], "--stack-bytes wants a number from 4096"),
        (["--file", "data"], "--file wants NAME=PATH"),
        (["--file", f"data={folder}/absent"], "a file that is there"),
        (["a.c"], "-o IMAGE is missing"),
        (["a.c", "-o"], "-o IMAGE is missing"),
    ):
        done = tilecc(*words)
        is_one_line = done.stderr.count("\n") == 1 and told in done.stderr
        expect(f"words {words}", done.returncode == 1 and is_one_line, done)
    done = tilecc("a.c", "-o", folder / "a.elf", path=str(folder))
    expect("a package", "apt-get install gcc-riscv64-unknown-elf" in done.stderr and done.returncode == 1, done)


def test_names(folder: Path) -> None:
    """What isn't there is refused by its name."""
    for include, code, told in (
        ("pthread.h", "pthread_detach(pthread_self())", "pthread_detach"),
        ("pthread.h", "pthread_cancel(pthread_self())", "pthread_cancel"),
        ("pthread.h", "pthread_cond_timedwait(0, 0, 0)", "pthread_cond_timedwait"),
        ("semaphore.h", "sem_timedwait(0, 0)", "sem_timedwait"),
        ("unistd.h", "fork()", "fork"),
    ):
        source = folder / "refused.c"
        source.write_text(f"#include <{include}>\nint main(void) {{ return (int){code}; }}\n")
        done = tilecc(source, "-o", folder / "refused.elf")
        expect(told, done.returncode != 0 and told in done.stderr, done)


def test_threads(folder: Path, tilesim: Path) -> None:
    """The parts of tests/threads.c."""
    (folder / "data").write_text("first\nsecond\n")
    words = ["--arg", "one", "--arg=two words", "--threads", "3", "--file", f"data={folder}/data", f"--file=-={folder}/data"]
    done = tilecc("-Wall", "-Wextra", *words, HERE / "tests/threads.c", "-o", folder / "threads.elf")
    expect("no warnings", done.returncode == 0 and not done.stderr, done)
    for tiles in (4, 5, 16):
        for policy in ("lax", "barrier", "p2p"):
            (folder / "settings").write_text(f'tiles = {tiles}\npolicy = "{policy}"\nsets = 4\nways = 1\n')
            for seed in ("1", "2", "3"):
                command = [tilesim, "run", folder / "threads.elf", "--config", folder / "settings", "--seed", seed]
                run = subprocess.run(command, capture_output=True, text=True, check=False)
                is_right = run.stdout.startswith(f"{PARTS}== tilesim ==\nend: exit 3\n")
                expect(f"threads.c, {tiles} tiles, {policy}, seed {seed}", is_right, run.stdout + run.stderr)


def main() -> int:
    """Makes all tests; the status is 1 where one failed."""
    parser = argparse.ArgumentParser(description=__doc__, formatter_class=argparse.RawDescriptionHelpFormatter)
    parser.add_argument("--tilesim", type=Path, default=TILESIM, help="the simulator (default: %(default)s)")
    options = parser.parse_args()
    if not options.tilesim.is_file():
        parser.error(f"{options.tilesim} isn't there: build it by `rt run` in crates/tilesim, or give --tilesim")
    with tempfile.TemporaryDirectory() as name:
        test_words(Path(name))
        test_names(Path(name))
        test_threads(Path(name), options.tilesim.resolve())
    done = subprocess.run([HERE / "kernels/build.sh", "check"], capture_output=True, text=True, check=False)
    expect("kept images", done.returncode == 0 and not done.stdout, done)
    print("failed" if failed else "passed")
    return 1 if failed else 0


if __name__ == "__main__":
    sys.exit(main())
