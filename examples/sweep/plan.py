#!/usr/bin/env python3
"""Plans a sweep: one or more images under every choice of the settings that are given as lists.

    plan.py IMAGE .. --tiles 1,2,4,8 --policy lax,barrier --seed 1-5 --out FOLDER

Each setting of docs/SETTINGS.md is an option: one value, several with commas between them, or a range as 1-5. What
isn't given stands in the file of --config, or has its default. FOLDER gets the file `commands`, one command a line; each
writes its outputs into FOLDER. Any runner makes them:

    xargs -P 4 -d '\\n' -n 1 sh -c '$0' <FOLDER/commands

and collect.py FOLDER then writes the tables and the pictures.
"""

import argparse
import itertools
from pathlib import Path

from runs import TILESIM, Plan, checked_image, checked_program, write_plan
from settings import DEFAULTS, Settings, add_options, lists_of, refuse, settings_file

MOST_RUNS = 100_000


def planner(about: str | None) -> argparse.ArgumentParser:
    """The words of a plan."""
    parser = argparse.ArgumentParser(
        description=about, formatter_class=argparse.RawDescriptionHelpFormatter, allow_abbrev=False
    )
    parser.add_argument("image", type=Path, nargs="+")
    parser.add_argument("--config", type=Path, help="a settings file")
    parser.add_argument("--out", type=Path, default=Path("sweep"), help="where to write (default: %(default)s)")
    parser.add_argument("--tilesim", type=Path, default=TILESIM, help="the simulator (default: %(default)s)")
    add_options(parser)
    return parser


def planned(options: argparse.Namespace) -> Plan:
    """The plan that the words give."""
    tilesim = checked_program(options.tilesim)
    images = [str(checked_image(image)) for image in options.image]
    if len(set(images)) < len(images):
        refuse("an image is given twice")
    base: Settings = DEFAULTS | (settings_file(options.config) if options.config else {})
    lists = lists_of(options)
    choices = [base | dict(zip(lists, values, strict=True)) for values in itertools.product(*lists.values())]
    if len(choices) * len(images) > MOST_RUNS:
        refuse(f"{len(choices) * len(images)} runs are more than {MOST_RUNS}")
    for settings in choices:
        if int(settings["hosts"]) > int(settings["tiles"]):
            refuse(f"hosts: {settings['hosts']} hosts are more than {settings['tiles']} tiles")
    return Plan(str(tilesim), [(image, settings) for image in images for settings in choices])


def main() -> None:
    """Writes a plan."""
    options = planner(__doc__).parse_args()
    plan = planned(options)
    write_plan(options.out, plan)
    print(f"{len(plan.runs)} runs: {options.out}/commands")


if __name__ == "__main__":
    main()
