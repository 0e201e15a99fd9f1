#!/usr/bin/env python3
"""The three policies by which clocks are kept near one another: simulated time, its spread over seeds, and the time of the host."""

from statistics import mean, stdev

from study import KERNELS, Panel, Run, begin, line, number, over_seeds

TILES = 16
SEEDS = (1, 2, 3, 4, 5)
# Each policy as the tables name it, and its settings.
CHOICES = {
    "barrier": {"policy": "barrier"},
    "lax": {"policy": "lax"},
    "p2p": {"policy": "p2p"},
    "p2p, slack 1000": {"policy": "p2p", "slack": 1000, "interval": 1000},
}
# Names that are too long for the picture.
SHORT = {"black_scholes": "options", "stream_cluster": "cluster", "lock_test_and_set": "lock"}


def main() -> None:
    """Makes the study."""
    study = begin("policies", __doc__)
    names = [*KERNELS, "lock_test_and_set"]
    todo = [
        (name, {"tiles": TILES, "seed": seed} | choice)
        for seed in SEEDS
        for name in names
        for choice in CHOICES.values()
    ]
    runs = study.run(todo)

    def found(name: str, choice: str, value) -> list[float]:
        return over_seeds(runs, value, image=name, **CHOICES[choice])

    clocks = {(name, choice): found(name, choice, Run.clock) for name in names for choice in CHOICES}
    error = {
        (name, choice): 100 * (mean(clocks[name, choice]) / mean(clocks[name, "barrier"]) - 1)
        for name in names
        for choice in CHOICES
    }
    spread = {key: 100 * stdev(values) / mean(values) for key, values in clocks.items()}
    seconds = {
        choice: sum(mean(found(name, choice, lambda run: run.seconds)) for name in names) for choice in CHOICES
    }
    events = {choice: sum(mean(found(name, choice, lambda run: run.events)) for name in names) for choice in CHOICES}

    columns = ["program", *CHOICES]
    rows = [[name, *(number(mean(clocks[name, choice])) for choice in CHOICES)] for name in names]
    study.table(f"The clock of the last tile, in cycles: mean over {len(SEEDS)} seeds, {TILES} tiles.", columns, rows)
    rows = [[name, *(number(error[name, choice], 2) for choice in CHOICES)] for name in names]
    rows.append(["mean of sizes", *(number(mean(abs(error[name, choice]) for name in names), 2) for choice in CHOICES)])
    study.table("The difference of that clock from the one under `barrier`, in per cent.", columns, rows)
    rows = [[name, *(number(spread[name, choice], 2) for choice in CHOICES)] for name in names]
    rows.append(["mean", *(number(mean(spread[name, choice] for name in names), 2) for choice in CHOICES)])
    study.table("The coefficient of variation of the clock over the seeds, in per cent.", columns, rows)
    rows = [
        ["host time, of that under lax", *(number(seconds[choice] / seconds["lax"], 2) for choice in CHOICES)],
        ["events, of those under lax", *(number(events[choice] / events["lax"], 2) for choice in CHOICES)],
    ]
    study.table("All programs together.", ["", *CHOICES], rows)
    panels = [
        Panel("difference (%)", [line(choice, [abs(error[name, choice]) for name in names]) for choice in CHOICES]),
        Panel("variation (%)", [line(choice, [spread[name, choice] for name in names]) for choice in CHOICES]),
    ]
    places = [SHORT.get(name, name) for name in names]
    study.picture("Policies: size of the difference from barrier, and spread over seeds", "", places, panels)
    study.finish()


if __name__ == "__main__":
    main()
