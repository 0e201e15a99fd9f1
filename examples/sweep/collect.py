#!/usr/bin/env python3
"""Collects a sweep that was planned: collect.py FOLDER [--across KEY] [--run N]. FOLDER gets

    runs.csv       a row for each tile of each run, with all settings
    means.csv      a row for each choice of settings but the seed: mean and coefficient of variation over the seeds
    clock.svg      the greatest clock of a run's tiles
    accesses.svg   hits and misses of all its tiles, and the miss rate
    tiles.svg      clock, hits and misses of each tile of one run

In the first two pictures a point is the mean over the seeds, and a bar goes from the least to the greatest. Runs that
are missing, and those whose program didn't exit, are named on standard error. The status is 1 where a run is missing or
has no report.
"""

import argparse
import csv
import sys
from collections.abc import Callable
from pathlib import Path
from statistics import mean, stdev

from chart import Panel, Point, Series, chart, draw_bars, draw_lines
from runs import Plan, Run, rate, read_plan, read_run
from settings import DEFAULTS, Value, refuse

IMAGE = "image"


def value_of(run: Run, key: str) -> Value:
    """The value of a setting, or the image's name."""
    return run.image if key == IMAGE else run.settings[key]


def varied(runs: list[Run]) -> list[str]:
    """The settings of which the runs have several values, the image among them."""
    return [key for key in (IMAGE, *DEFAULTS) if len({value_of(run, key) for run in runs}) > 1]


def write_runs(path: Path, runs: list[Run]) -> None:
    """A row for each tile of each run."""
    with path.open("w", newline="") as file:
        table = csv.writer(file)
        counts = ["tile", "clock", "instr", "hits", "misses", "miss_rate"]
        table.writerow(["run", IMAGE, *DEFAULTS, "status", "end", "events_made", "seconds", *counts])
        for run in runs:
            values = [run.settings[key] for key in DEFAULTS]
            start = [run.number, run.image, *values, run.status, run.end, run.events, run.seconds]
            for index, tile in enumerate(run.tiles):
                share = f"{rate(tile.hits, tile.misses):.4f}"
                table.writerow([*start, index, tile.clock, tile.instr, tile.hits, tile.misses, share])


def spread(values: list[float]) -> list[str]:
    """The mean, and the coefficient of variation in per cent: nothing where there is one value."""
    middle = mean(values)
    return [f"{middle:.4f}", f"{100 * stdev(values) / middle:.4f}" if len(values) > 1 and middle else ""]


def write_means(path: Path, runs: list[Run]) -> None:
    """A row for each choice of settings but the seed."""
    measures: dict[str, Callable[[Run], float]] = {
        "clock": Run.clock,
        "events_made": lambda run: run.events,
        "hits": Run.hits,
        "misses": Run.misses,
        "miss_rate": Run.miss_rate,
        "seconds": lambda run: run.seconds,
    }
    keys = [IMAGE, *(key for key in DEFAULTS if key != "seed")]
    groups: dict[tuple[Value, ...], list[Run]] = {}
    for run in runs:
        groups.setdefault(tuple(value_of(run, key) for key in keys), []).append(run)
    with path.open("w", newline="") as file:
        table = csv.writer(file)
        columns = [name for measure in measures for name in (f"{measure}_mean", f"{measure}_variation")]
        table.writerow([*keys, "seeds", *columns])
        for values, group in groups.items():
            found = [spread([measure(run) for run in group]) for measure in measures.values()]
            table.writerow([*values, len(group), *(word for pair in found for word in pair)])


def series_of(runs: list[Run], across: str, apart: list[str], value: Callable[[Run], float]) -> list[Series]:
    """A value of the runs at each value of the setting `across`; a series for each choice of those `apart`."""
    places = list(dict.fromkeys(value_of(run, across) for run in runs))
    groups: dict[str, dict[Value, list[float]]] = {}
    for run in runs:
        name = ", ".join(str(value_of(run, key)) if key == IMAGE else f"{key} {value_of(run, key)}" for key in apart)
        groups.setdefault(name, {}).setdefault(value_of(run, across), []).append(value(run))

    def point(found: list[float] | None) -> Point | None:
        return Point(min(found), mean(found), max(found)) if found else None

    return [Series(name, [point(group.get(place)) for place in places]) for name, group in groups.items()]


def draw_sweep(folder: Path, name: str, runs: list[Run], across: str, apart: list[str]) -> None:
    """The two pictures over the sweep."""
    places = [str(place) for place in dict.fromkeys(value_of(run, across) for run in runs)]

    def panel(label: str, value: Callable[[Run], float]) -> Panel:
        return Panel(label, series_of(runs, across, apart, value))

    accesses = [panel("hits", Run.hits), panel("misses", Run.misses), panel("miss rate (%)", Run.miss_rate)]
    pictures = {
        "clock": (f"{name}: clock of the last tile", [panel("clock (cycles)", Run.clock)]),
        "accesses": (f"{name}: data accesses", accesses),
    }
    for file, (title, panels) in pictures.items():
        (folder / f"{file}.svg").write_text(chart(title, across, places, panels, draw_lines))


def draw_tiles(folder: Path, run: Run, keys: list[str]) -> None:
    """The picture of one run, tile by tile."""

    def panel(label: str, values: list[int]) -> Panel:
        return Panel(label, [Series("", [Point(value, value, value) for value in values])])

    panels = [
        panel("clock (cycles)", [tile.clock for tile in run.tiles]),
        panel("hits", [tile.hits for tile in run.tiles]),
        panel("misses", [tile.misses for tile in run.tiles]),
    ]
    chosen = ", ".join(f"{key} {run.settings[key]}" for key in keys if key != IMAGE)
    title = f"{run.image}: {chosen}" if chosen else run.image
    places = [str(index) for index in range(len(run.tiles))]
    (folder / "tiles.svg").write_text(chart(title, "tile", places, panels, draw_bars))


def tell(runs: list[Run | None], folder: Path) -> int:
    """Names what is missing and what failed; answers how many runs have no report."""
    bad = 0
    for number, run in enumerate(runs):
        if run is None:
            print(f"run {number}: missing; its command is line {number + 1} of {folder}/commands", file=sys.stderr)
        elif not run.end or run.status > 3:
            print(f"run {number}: status {run.status}: {run.printed or 'nothing printed'}", file=sys.stderr)
        elif run.status != 0:
            print(f"run {number}: end {run.end}", file=sys.stderr)
        elif not run.end.startswith("exit 0"):
            print(f"run {number}: end {run.end}", file=sys.stderr)
        bad += run is None or not run.end or run.status > 3
    return bad


def add_collecting(parser: argparse.ArgumentParser) -> None:
    """The words that say what is drawn."""
    keys = [IMAGE, *DEFAULTS]
    parser.add_argument("--across", choices=keys, metavar="KEY", help="what is on the x axis (default: the first list)")
    parser.add_argument("--run", type=int, default=-1, help="the run of tiles.svg, by its number (default: the last)")


def collect(folder: Path, plan: Plan, across: str | None, shown: int) -> int:
    """Writes tables and pictures; answers the status."""
    found = [read_run(folder, plan, number) for number in range(len(plan.runs))]
    if not -len(found) <= shown < len(found):
        refuse(f"there are {len(found)} runs, from 0 on, and no run {shown}")
    bad = tell(found, folder)
    runs = [run for run in found if run is not None and run.end and run.tiles]
    if not runs:
        refuse(f"{folder}: no run has a report")
    write_runs(folder / "runs.csv", runs)
    write_means(folder / "means.csv", runs)
    keys = varied(runs)
    apart = [key for key in keys if key != "seed"] or ["seed"]
    across = across or next((key for key in apart if key != IMAGE), apart[0])
    name = runs[0].image if IMAGE not in keys else "sweep"
    draw_sweep(folder, name, runs, across, [key for key in apart if key != across])
    one = found[shown]
    draw_tiles(folder, one if one in runs and one is not None else runs[-1], keys)
    print(f"{len(runs)} of {len(found)} runs: {folder}/runs.csv, means.csv, clock.svg, accesses.svg, tiles.svg")
    return 1 if bad else 0


def main() -> int:
    """Collects a folder."""
    parser = argparse.ArgumentParser(
        description=__doc__, formatter_class=argparse.RawDescriptionHelpFormatter, allow_abbrev=False
    )
    parser.add_argument("folder", type=Path)
    add_collecting(parser)
    options = parser.parse_args()
    return collect(options.folder, read_plan(options.folder), options.across, options.run)


if __name__ == "__main__":
    sys.exit(main())
