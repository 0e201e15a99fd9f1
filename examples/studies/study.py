"""What the studies have in common: they make their runs by the scripts of examples/sweep, and write a picture and tables."""

import argparse
import re
import sys
import tempfile
from collections.abc import Callable
from dataclasses import dataclass, field
from pathlib import Path
from statistics import mean

ROOT = Path(__file__).resolve().parents[2]
sys.path.insert(0, str(ROOT / "examples/sweep"))

from chart import Panel, Point, Series, chart, draw_lines  # noqa: E402
from runs import TILESIM, Plan, Run, checked_image, checked_program, read_run, write_plan  # noqa: E402
from settings import DEFAULTS, Settings  # noqa: E402
from sweep import make_runs  # noqa: E402

KERNELS = ("fft", "lu", "radix", "ocean", "nbody", "black_scholes", "stream_cluster", "pool")
IMAGES = ROOT / "examples/posix/kernels"
PAGES = ROOT / "docs/studies"
TILES = (1, 2, 4, 8, 16, 32, 64)


@dataclass
class Study:
    """A study under way: its words, and what it writes."""

    name: str
    options: argparse.Namespace
    tables: list[str] = field(default_factory=list)

    def run(self, choices: list[tuple[str, Settings]]) -> list[Run]:
        """Makes the runs of images by name under settings beside the defaults. Each has to end by exit 0."""
        images = [(str(checked_image(IMAGES / f"{image}.elf")), DEFAULTS | settings) for image, settings in choices]
        plan = Plan(str(checked_program(self.options.tilesim)), images)
        with tempfile.TemporaryDirectory() as folder:
            write_plan(Path(folder), plan)
            make_runs(Path(folder), plan, self.options.jobs)
            found = [read_run(Path(folder), plan, number) for number in range(len(choices))]
        made = [run for run in found if run is not None and run.end == "exit 0"]
        if len(made) < len(found):
            bad = next(run for run in found if run is None or run.end != "exit 0")
            sys.exit(f"{self.name}: a run didn't end by exit 0: {bad}")
        return made

    def table(self, title: str, columns: list[str], rows: list[list[str]]) -> None:
        """Adds a table."""
        lines = [f"| {' | '.join(columns)} |", "|" + "---|" * len(columns)]
        lines += [f"| {' | '.join(row)} |" for row in rows]
        self.tables.append(f"{title}\n\n" + "\n".join(lines) + "\n")

    def picture(self, title: str, x_label: str, places: list[str], panels: list[Panel]) -> None:
        """Writes the picture."""
        self.folder().mkdir(parents=True, exist_ok=True)
        (self.folder() / f"{self.name}.svg").write_text(chart(title, x_label, places, panels, draw_lines))

    def folder(self) -> Path:
        """Where the study writes."""
        return PAGES if self.options.page else self.options.out

    def finish(self) -> None:
        """Writes the tables: into a file, or into the marked part of the study's page."""
        text = "\n".join(self.tables)
        print(text)
        if self.options.page:
            page = PAGES / f"{self.name}.md"
            before, begin, rest = page.read_text().partition("<!-- tables -->\n")
            _, end, after = rest.partition("<!-- end of tables -->\n")
            page.write_text(before + begin + "\n" + text + "\n" + end + after)
        else:
            (self.folder() / f"{self.name}.md").write_text(text)


def begin(name: str, about: str | None) -> Study:
    """Reads the words of a study."""
    parser = argparse.ArgumentParser(description=about, formatter_class=argparse.RawDescriptionHelpFormatter)
    parser.add_argument("--tilesim", type=Path, default=TILESIM, help="the simulator (default: %(default)s)")
    parser.add_argument("--jobs", type=int, default=2, help="runs at a time (default: %(default)s)")
    parser.add_argument("--out", type=Path, default=Path("studies"), help="where to write (default: %(default)s)")
    parser.add_argument("--page", action="store_true", help="write into docs/studies")
    return Study(name, parser.parse_args())


def over_seeds(runs: list[Run], value: Callable[[Run], float], **wanted: int | str) -> list[float]:
    """A value of the runs that have the wanted image and settings."""
    return [value(run) for run in runs if all(wanted[key] == (run.image if key == "image" else run.settings[key]) for key in wanted)]


def middle(runs: list[Run], value: Callable[[Run], float], **wanted: int | str) -> float:
    """The mean of a value over the seeds."""
    return mean(over_seeds(runs, value, **wanted))


def line(name: str, values: list[float]) -> Series:
    """A series of a picture."""
    return Series(name, [Point(value, value, value) for value in values])


def number(value: float, digits: int = 0) -> str:
    """A number for a table."""
    text = f"{value:,.{digits}f}"
    return "0" + text[2:] if re.fullmatch(r"-0(\.0*)?", text) else text
