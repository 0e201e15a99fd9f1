#!/usr/bin/env python3
"""Runs the simulator under limits on its address space, in steps from what the system needs to load it up to what is ample.

    memory.py [--tilesim PROGRAM] [--steps N]

Each run must answer as with ample memory, or with status 10 and no standard error; never by a signal. With status 10 it prints
nothing, or, where memory ran out in writing the journal, the whole text; a file that it would have written holds what it held.
The script prints for each command how often each answer came. It needs Linux and Python alone.
"""

import argparse
import resource
import subprocess
import sys
import tempfile
from collections import Counter
from pathlib import Path

ROOT = Path(__file__).resolve().parents[2]
TILESIM = ROOT / "crates/tilesim/out/tilesim"
PAGE = resource.getpagesize()
NO_MEMORY = 10
NOT_LOADED = 127
HELD = b"what it held"

# The commands, and the file that each writes. `image.elf`, `big.elf`, `journal` and `settings` stand in the folder.
COMMANDS = (
    (["words", "that", "mean", "nothing"], None),
    (["run", "image.elf"], None),
    (["run", "image.elf", "--journal", "out"], "out"),
    (["run", "image.elf", "--config", "settings", "--journal", "out"], "out"),
    (["run", "image.elf", "--config", "large", "--journal", "out"], "out"),
    (["run", "image.elf", "--config", "full"], None),
    (["run", "big.elf"], None),
    (["replay", "image.elf", "journal"], None),
    (["replay", "image.elf", "cut"], None),
    (["gen", "reduce", "3", "out"], "out"),
    (["bench", "1"], None),
)


class Answer:
    """What a call gave: its status (below 0: a signal), its output, what came on standard error, and what the file then held."""

    def __init__(self, program: Path, folder: Path, words: list[str], written: str | None, limit: int | None) -> None:
        if written is not None:
            (folder / written).write_bytes(HELD)

        def limited() -> None:
            if limit is not None:
                resource.setrlimit(resource.RLIMIT_AS, (limit, limit))

        done = subprocess.run(
            [program, *words], cwd=folder, stdin=subprocess.DEVNULL, capture_output=True, check=False, preexec_fn=limited
        )
        self.status, self.text, self.told = done.returncode, done.stdout, done.stderr
        self.file = (folder / written).read_bytes() if written is not None else b""

    def is_as(self, ample: "Answer") -> bool:
        """Is it the answer with ample memory?"""
        return (self.status, self.text, self.told, self.file) == (ample.status, ample.text, ample.told, ample.file)

    def is_want(self, ample: "Answer", written: str | None) -> bool:
        """Is it an answer for want of memory?"""
        texts = (b"", ample.text) if written is not None else (b"",)
        held = HELD if written is not None else b""
        return self.status == NO_MEMORY and self.told == b"" and self.text in texts and self.file == held

    def is_unloaded(self) -> bool:
        """Did the system fail to load the program, before its first instruction?"""
        return self.status < 0 or self.status == NOT_LOADED


def lay_out(program: Path, folder: Path) -> None:
    """Makes the files that the commands read."""
    subprocess.run([program, "gen", "lock", "1", "image.elf"], cwd=folder, check=True)
    subprocess.run([program, "run", "image.elf", "--journal", "journal"], cwd=folder, check=True, capture_output=True)
    image, journal = (folder / "image.elf").read_bytes(), (folder / "journal").read_bytes()
    (folder / "big.elf").write_bytes(image + bytes(16_777_216 - len(image)))
    (folder / "cut").write_bytes(journal[:-1])
    (folder / "settings").write_text('tiles = 16\npolicy = "barrier"\nquantum = 50\n')
    (folder / "large").write_text("tiles = 64\nhosts = 8\nsets = 1024\nways = 16\nheap_bytes = 67108864\nstack_bytes = 1048576\n")
    (folder / "full").write_text("seed = 2\n" + "#" * (65_536 - 9))


def floor_of(program: Path, folder: Path) -> int:
    """A limit under which the system loads the program, whatever its words: the least for one word, and eight pages more."""
    limit = 64 * PAGE
    while Answer(program, folder, ["x"], None, limit).is_unloaded():
        limit += PAGE
    return limit + 8 * PAGE


def enough_for(program: Path, folder: Path, words: list[str], written: str | None, ample: Answer, floor: int) -> int:
    """A limit under which a command answers as with ample memory."""
    more = 16 * PAGE
    while not Answer(program, folder, words, written, floor + more).is_as(ample):
        more *= 2
        if more > 1 << 36:
            sys.exit(f"{' '.join(words)}: no limit is enough")
    return floor + more


def try_command(program: Path, folder: Path, words: list[str], written: str | None, floor: int, steps: int) -> bool:
    """Runs a command under each limit, and prints what was seen."""
    ample = Answer(program, folder, words, written, None)
    enough = enough_for(program, folder, words, written, ample, floor)
    step = max(PAGE, (enough - floor) // steps // PAGE * PAGE)
    seen: Counter[str] = Counter()
    wrong = []
    for limit in range(floor, enough + step, step):
        answer = Answer(program, folder, words, written, limit)
        if answer.is_as(ample):
            seen[f"status {ample.status} as with ample memory"] += 1
        elif answer.is_want(ample, written):
            seen["status 10" + (" after the text" if answer.text else "")] += 1
        else:
            wrong.append(f"  under {limit} bytes: status {answer.status}, {answer.text[:40]!r}, {answer.told[:40]!r}")
    told = ", ".join(f"{count} with {name}" for name, count in sorted(seen.items()))
    print(f"{' '.join(words)}: {told}")
    print("".join(f"{line}\n" for line in wrong), end="")
    return not wrong


def main() -> int:
    """Tries each command."""
    parser = argparse.ArgumentParser(description="Runs the simulator under limits on its address space.")
    parser.add_argument("--tilesim", type=Path, default=TILESIM, help="the built program")
    parser.add_argument("--steps", type=int, default=100, help="about how many limits for each command")
    given = parser.parse_args()
    program = given.tilesim.resolve()
    with tempfile.TemporaryDirectory() as name:
        folder = Path(name)
        lay_out(program, folder)
        floor = floor_of(program, folder)
        print(f"the system loads the program from {floor} bytes on")
        results = [try_command(program, folder, words, written, floor, given.steps) for words, written in COMMANDS]
    return 0 if all(results) else 1


if __name__ == "__main__":
    sys.exit(main())
