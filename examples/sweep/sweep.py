#!/usr/bin/env python3
"""Runs images under every choice of the settings that are given as lists, and writes tables and pictures: plan.py, then
its commands, several at a time, then collect.py.

    sweep.py IMAGE .. --tiles 1,2,4,8 --policy lax,barrier --seed 1-5 --out FOLDER

Each setting of docs/SETTINGS.md is an option: one value, several with commas between them, or a range as 1-5. What
isn't given stands in the file of --config, or has its default. docs/SWEEP.md says what FOLDER gets.
"""

import os
import sys
from concurrent.futures import ThreadPoolExecutor, as_completed
from pathlib import Path

from collect import add_collecting, collect
from plan import planned, planner
from runs import Plan, make_run, write_plan
from settings import refuse


def make_runs(folder: Path, plan: Plan, jobs: int) -> None:
    """Makes all runs of a plan, so many at a time. On a terminal a line says how many are done."""
    is_shown = sys.stderr.isatty()
    with ThreadPoolExecutor(jobs) as pool:
        waiting = [pool.submit(make_run, folder, plan, number) for number in range(len(plan.runs))]
        for done, one in enumerate(as_completed(waiting), 1):
            one.result()
            if is_shown:
                print(f"\r{done} of {len(waiting)} runs", end="", file=sys.stderr, flush=True)
    if is_shown:
        print(file=sys.stderr)


def main() -> int:
    """Plans, runs and collects."""
    parser = planner(__doc__)
    add_collecting(parser)
    parser.add_argument("--jobs", type=int, default=os.cpu_count(), help="runs at a time (default: %(default)s)")
    options = parser.parse_args()
    if options.jobs < 1:
        refuse(f"jobs: {options.jobs} isn't a number from 1 on")
    plan = planned(options)
    if not -len(plan.runs) <= options.run < len(plan.runs):
        refuse(f"there are {len(plan.runs)} runs, from 0 on, and no run {options.run}")
    write_plan(options.out, plan)
    make_runs(options.out, plan, options.jobs)
    return collect(options.out, plan, options.across, options.run)


if __name__ == "__main__":
    sys.exit(main())
