"""A planned sweep and its runs, as files of one folder:

    plan.json     the simulator and the runs: for each an image and settings
    commands      one command a line; the command of run N writes the three files below
    N.toml        the settings of run N
    N.out         what the simulator printed: the program's output and the report
    N.err         what it printed on standard error
    N.done        the exit status and the seconds, written last
"""

import json
import os
import re
import shlex
import subprocess
import time
from dataclasses import dataclass
from pathlib import Path

from settings import Settings, as_toml, refuse

HERE = Path(__file__).resolve().parent
TILESIM = HERE.parents[1] / "crates/tilesim/out/tilesim"


@dataclass(frozen=True)
class Tile:
    """What a report says of a tile: its clock in cycles, and counts."""

    clock: int
    instr: int
    hits: int
    misses: int


@dataclass(frozen=True)
class Run:
    """A run: its number, its image, its settings, and what came of it. `end` is empty where there is no report."""

    number: int
    image: str
    settings: Settings
    status: int
    seconds: float
    end: str
    events: int
    tiles: list[Tile]
    printed: str  # the last line that the simulator printed
    output: str  # what the program printed

    def clock(self) -> int:
        """The clock of the tile that was last, in cycles."""
        return max(tile.clock for tile in self.tiles)

    def instructions(self) -> int:
        """The instructions of all tiles."""
        return sum(tile.instr for tile in self.tiles)

    def hits(self) -> int:
        """The hits of all tiles."""
        return sum(tile.hits for tile in self.tiles)

    def misses(self) -> int:
        """The misses of all tiles."""
        return sum(tile.misses for tile in self.tiles)

    def miss_rate(self) -> float:
        """The share of misses in all accesses, in per cent."""
        return rate(self.hits(), self.misses())


def rate(hits: int, misses: int) -> float:
    """The share of misses in all accesses, in per cent."""
    return 100 * misses / (hits + misses) if misses else 0.0


@dataclass(frozen=True)
class Plan:
    """The runs that are to be made."""

    tilesim: str
    runs: list[tuple[str, Settings]]


def checked_program(path: Path) -> Path:
    """The simulator, if it is there and can be run."""
    if not path.is_file() or not os.access(path, os.X_OK):
        refuse(f"{path}: no program; build it by `rt run` in crates/tilesim, or give --tilesim")
    return path.resolve()


def checked_image(path: Path) -> Path:
    """An image, if it is there."""
    if not path.is_file():
        refuse(f"{path}: no such image")
    return path.resolve()


def write_plan(folder: Path, plan: Plan) -> None:
    """Writes a plan into a folder that has none yet, or whose runs are older; those are removed."""
    try:
        folder.mkdir(parents=True, exist_ok=True)
        for old in folder.iterdir():
            if re.fullmatch(r"[0-9]+\.(toml|out|err|done)", old.name):
                old.unlink()
        one = HERE / "one.py"
        commands = [shlex.join([str(one), str(folder.resolve()), str(number)]) for number in range(len(plan.runs))]
        for number, (_, settings) in enumerate(plan.runs):
            (folder / f"{number}.toml").write_text(as_toml(settings))
        (folder / "commands").write_text("".join(f"{command}\n" for command in commands))
        (folder / "plan.json").write_text(json.dumps({"tilesim": plan.tilesim, "runs": plan.runs}, indent=1))
    except OSError as error:
        refuse(f"{error.filename}: {error.strerror}")


def read_plan(folder: Path) -> Plan:
    """The plan of a folder."""
    try:
        found = json.loads((folder / "plan.json").read_text())
        return Plan(found["tilesim"], [(image, settings) for image, settings in found["runs"]])
    except OSError as error:
        refuse(f"{folder}: no plan: {error.strerror}")
    except (ValueError, KeyError, TypeError):
        refuse(f"{folder}/plan.json: no plan")


def make_run(folder: Path, plan: Plan, number: int) -> int:
    """Makes one run of a plan; answers its status."""
    if not 0 <= number < len(plan.runs):
        refuse(f"{folder}: there is no run {number}")
    words = [plan.tilesim, "run", plan.runs[number][0], "--config", folder / f"{number}.toml"]
    with (folder / f"{number}.out").open("wb") as out, (folder / f"{number}.err").open("wb") as err:
        begin = time.perf_counter()
        try:
            status = subprocess.run(words, stdin=subprocess.DEVNULL, stdout=out, stderr=err, check=False).returncode
        except OSError as error:
            status = 127
            err.write(f"{plan.tilesim}: {error.strerror}\n".encode())
        seconds = time.perf_counter() - begin
    part = folder / f"{number}.part"
    part.write_text(f"{status} {seconds:.3f}\n")
    part.replace(folder / f"{number}.done")
    return status


def read_run(folder: Path, plan: Plan, number: int) -> Run | None:
    """What came of a run; nothing where it hasn't ended."""
    try:
        status, seconds = (folder / f"{number}.done").read_text().split()
        text = (folder / f"{number}.out").read_text(errors="replace")
        errors = (folder / f"{number}.err").read_text(errors="replace")
    except (OSError, ValueError):
        return None
    image, settings = plan.runs[number]
    output, mark, report = text.rpartition("== tilesim ==\n")
    end = re.search(r"^end: (.*)$", report, re.MULTILINE) if mark else None
    events = re.search(r"^events: (\d+)$", report, re.MULTILINE)
    rows = re.findall(r"^tile \d+: clock (\d+) instr (\d+) hits (\d+) misses (\d+)$", report, re.MULTILINE)
    printed = [line for line in (text + errors).splitlines() if line.strip()]
    return Run(
        number,
        Path(image).stem,
        settings,
        int(status),
        float(seconds),
        end[1] if end else "",
        int(events[1]) if events else 0,
        [Tile(*map(int, row)) for row in rows],
        printed[-1] if printed else "",
        output if mark else text,
    )
