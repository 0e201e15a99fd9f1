#!/usr/bin/env python3
"""How many instructions some things take: each is built once with 100 and once with 300 turns of a loop around it.

    costs.py [--tilesim PROGRAM]
"""

import argparse
import re
import subprocess
import sys
import tempfile
from pathlib import Path

HERE = Path(__file__).resolve().parent
TILESIM = HERE.parents[1] / "crates/tilesim/out/tilesim"

HEAD = """
#include <math.h>
#include <pthread.h>
#include <stdio.h>
#include <stdlib.h>
#include <string.h>
volatile double x = 1.5, y = 2.25;
volatile float u = 1.5f, v = 2.25f;
volatile long n = 12345;
char from[1024], to[1024], text[64];
pthread_mutex_t mutex = PTHREAD_MUTEX_INITIALIZER;
pthread_t thread;
void *nothing(void *unused) { return unused; }
int main(void) {
    for (volatile int i = 0; i < TURNS; i++) {
        %s;
    }
    return 0;
}
"""
# What is measured, and a statement of it.
THINGS = {
    "an empty turn, which is in each row below": "",
    "addition of `double`": "x = x + y",
    "multiplication of `double`": "y = x * x",
    "division of `double`": "y = x / y",
    "multiplication of `float`": "v = u * u",
    "`sqrt`": "y = sqrt(x)",
    "`sin`": "y = sin(x)",
    "`exp`": "y = exp(x)",
    "`expf`": "v = expf(u)",
    "`malloc` and `free` of 100 bytes": "free(malloc(100))",
    "`memcpy` of 1024 bytes": "memcpy(to, from, 1024)",
    '`printf("%ld\\n")` of five digits': 'printf("%ld\\n", n)',
    '`printf("%f\\n")`': 'printf("%f\\n", x)',
    '`snprintf("%ld")` of five digits': 'snprintf(text, 64, "%ld", n)',
    "`pthread_mutex_lock` and `unlock`, free": "pthread_mutex_lock(&mutex); pthread_mutex_unlock(&mutex)",
    "`pthread_create` and `pthread_join`, on both tiles": "pthread_create(&thread, 0, nothing, 0); pthread_join(thread, 0)",
}


def instructions(tilesim: Path, folder: Path, statement: str, turns: int) -> int:
    """The instructions of a program that makes the statement so many times."""
    (folder / "cost.c").write_text(HEAD % statement)
    words = [HERE / "tilecc", f"-DTURNS={turns}", folder / "cost.c", "-o", folder / "cost.elf"]
    subprocess.run(words, check=True)
    run = subprocess.run([tilesim, "run", folder / "cost.elf"], capture_output=True, text=True, check=False)
    found = re.search(r"^end: exit 0$[\s\S]*^total: instr (\d+) ", run.stdout, re.MULTILINE)
    if found is None:
        sys.exit(f"{statement}: no exit:\n{run.stdout}{run.stderr}")
    return int(found[1])


def main() -> None:
    """Prints a table."""
    parser = argparse.ArgumentParser(description=__doc__, formatter_class=argparse.RawDescriptionHelpFormatter)
    parser.add_argument("--tilesim", type=Path, default=TILESIM, help="the simulator (default: %(default)s)")
    options = parser.parse_args()
    print("| what | instructions |\n|---|---|")
    with tempfile.TemporaryDirectory() as name:
        for thing, statement in THINGS.items():
            few, many = (instructions(options.tilesim.resolve(), Path(name), statement, turns) for turns in (100, 300))
            print(f"| {thing} | {(many - few) / 200:,.0f} |")


if __name__ == "__main__":
    main()
