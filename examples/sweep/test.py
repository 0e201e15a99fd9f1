#!/usr/bin/env python3
"""Tests of the scripts of this folder, over a program that stands in for the simulator: bad words, missing images, failing
runs, lost output. It needs Python alone."""

import csv
import subprocess
import sys
import tempfile
from pathlib import Path

HERE = Path(__file__).resolve().parent

# Ends as the image's name says. The settings file is its fourth word.
STAND_IN = """#!/bin/sh
seed=$(sed -n 's/^seed = //p' "$4")
case $2 in
    */trap.elf) end='trap thread 0 Illegal at 0x0000000000010124'; status=1 ;;
    */budget.elf) end='budget'; status=3 ;;
    */refused.elf) echo 'tilesim: bad image Short'; exit 6 ;;
    */killed.elf) kill -9 $$ ;;
    *) end='exit 0'; status=0 ;;
esac
echo hello
echo '== tilesim =='
echo "end: $end"
echo 'events: 24'
echo "tile 0: clock $((100 + seed)) instr 9 hits 3 misses 1"
echo 'total: instr 9 hits 3 misses 1'
exit $status
"""

failed = []


def expect(name: str, is_met: bool, told: object = "") -> None:
    """Notes what isn't as it should be."""
    if not is_met:
        failed.append(name)
        print(f"failed: {name}: {told}")


def call(script: str, *words: object) -> subprocess.CompletedProcess[str]:
    """Calls a script."""
    command = [sys.executable, HERE / script, *map(str, words)]
    return subprocess.run(command, capture_output=True, text=True, check=False)


def refused(name: str, told: str, script: str, *words: object) -> None:
    """The script ends with status 2 and this line, without a traceback."""
    done = call(script, *words)
    is_one_line = done.stderr.count("\n") == 1 and told in done.stderr
    expect(name, done.returncode == 2 and is_one_line and not done.stdout, done)


def test_words(folder: Path, tilesim: Path, image: Path) -> None:
    """Bad words are refused, each with one line."""
    common = [image, "--tilesim", tilesim, "--out", folder / "none"]
    for key, words, told in (
        ("tiles", "8-1", "the range 8-1 ends before it begins"),
        ("tiles", "0", "0 isn't a number from 1 to 64"),
        ("tiles", "1,,2", "'' is neither a number nor a range"),
        ("tiles", "four", "'four' is neither a number nor a range"),
        ("tiles", "-1", "'-1' is neither a number nor a range"),
        ("seed", "1-99999999", "more than 10000 values"),
        ("seed", "2,1-3", "has a value twice"),
        ("policy", "lax,strict", "'strict' is none of lax, barrier, p2p"),
        ("stack-bytes", "5000", "isn't a multiple of 4096"),
        ("hosts", "8", "8 hosts are more than 4 tiles"),
        ("jobs", "0", "isn't a number from 1 on"),
        ("run", "1", "there are 1 runs, from 0 on, and no run 1"),
        ("config", folder / "absent", "No such file"),
    ):
        refused(f"--{key}={words}", told, "sweep.py", *common, f"--{key}={words}")
    for text, told in (("tiles = ", "Invalid value"), ("tails = 3", "there is no setting tails"), ("ways = 17", "ways: 17")):
        (folder / "settings").write_text(text)
        refused(text, told, "plan.py", *common, "--config", folder / "settings")
    refused("no image", "no such image", "plan.py", folder / "absent.elf", "--tilesim", tilesim)
    refused("an image twice", "twice", "plan.py", image, image, "--tilesim", tilesim)
    refused("no simulator", "no program", "plan.py", image, "--tilesim", folder / "absent")
    refused("no folder", "", "plan.py", image, "--tilesim", tilesim, "--out", image / "in")
    refused("no plan", "no plan", "collect.py", folder)
    expect("nothing is written", not (folder / "none").exists())


def test_sweep(folder: Path, tilesim: Path, images: dict[str, Path]) -> None:
    """All runs are in the tables, and the program's output is kept."""
    out = folder / "good"
    words = ["--tiles", "1,2", "--seed", "1-3", "--out", out, "--tilesim", tilesim]
    done = call("sweep.py", images["good"], images["other"], *words)
    expect("sweep", done.returncode == 0 and done.stdout.startswith("12 of 12 runs") and not done.stderr, done)
    rows = list(csv.DictReader((out / "runs.csv").open()))
    expect("rows", len(rows) == 12 and {row["miss_rate"] for row in rows} == {"25.0000"}, rows)
    means = list(csv.DictReader((out / "means.csv").open()))
    found = {(row["clock_mean"], row["clock_variation"], row["seeds"]) for row in means}
    expect("means", len(means) == 4 and found == {("102.0000", "0.9804", "3")}, means)
    expect("output", (out / "0.out").read_text().startswith("hello\n"))
    expect("pictures", all("</svg>" in (out / f"{name}.svg").read_text() for name in ("clock", "accesses", "tiles")))


def test_failures(folder: Path, tilesim: Path, images: dict[str, Path]) -> None:
    """Missing and failed runs are named with their status."""
    out = folder / "bad"
    names = ("good", "trap", "budget", "refused", "killed")
    done = call("plan.py", *(images[name] for name in names), "--out", out, "--tilesim", tilesim)
    expect("plan", done.stdout == f"5 runs: {out}/commands\n", done)
    commands = (out / "commands").read_text().splitlines()
    statuses = [subprocess.run(["sh", "-c", line], check=False).returncode for line in commands[:4]]
    expect("statuses", statuses == [0, 0, 0, 6], statuses)
    done = call("collect.py", out)
    told = [
        "run 1: end trap thread 0 Illegal at 0x0000000000010124",
        "run 2: end budget",
        "run 3: status 6: tilesim: bad image Short",
        f"run 4: missing; its command is line 5 of {out}/commands",
    ]
    expect("told", done.returncode == 1 and done.stderr.splitlines() == told, done)
    expect("collected", done.stdout.startswith("3 of 5 runs"), done)
    subprocess.run(["sh", "-c", commands[4]], check=False)
    done = call("collect.py", out)
    expect("killed", "run 4: status -9: nothing printed" in done.stderr, done)
    (out / "plan.json").write_text("{}")
    refused("a bad plan", "no plan", "collect.py", out)


def main() -> int:
    """Makes all tests; the status is 1 where one failed."""
    with tempfile.TemporaryDirectory() as name:
        folder = Path(name)
        tilesim = folder / "stand-in"
        tilesim.write_text(STAND_IN)
        tilesim.chmod(0o755)
        images = {word: folder / f"{word}.elf" for word in ("good", "other", "trap", "budget", "refused", "killed")}
        for image in images.values():
            image.write_text("")
        test_words(folder, tilesim, images["good"])
        test_sweep(folder, tilesim, images)
        test_failures(folder, tilesim, images)
    print("failed" if failed else "passed")
    return 1 if failed else 0


if __name__ == "__main__":
    sys.exit(main())
