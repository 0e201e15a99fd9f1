#!/usr/bin/env python3
"""Locks and barriers: misses, messages and cycles for each acquisition and each wait, over 1 to 64 tiles."""

from collections.abc import Callable

from study import TILES, Panel, Run, begin, line, middle, number

SEEDS = (1, 2, 3)
LOCKS = ("test_and_set", "ticket", "mcs", "futex")
BARRIERS = ("central", "dissemination", "tree", "futex")
ACQUISITIONS = 512  # of all threads together, in locks.c
ROUNDS = 16  # of each thread, in barriers.c


def messages(run: Run) -> float:
    """Events that aren't instructions: messages that nodes take, and steps of the servers."""
    return run.events - run.instructions()


def main() -> None:
    """Makes the study."""
    study = begin("locks", __doc__)
    images = [f"lock_{name}" for name in ("none", *LOCKS)] + [f"barrier_{name}" for name in ("none", *BARRIERS)]
    runs = study.run([(image, {"tiles": tiles, "seed": seed}) for image in images for tiles in TILES for seed in SEEDS])

    def above_none(image: str, tiles: int, value: Callable[[Run], float]) -> float:
        none = image.partition("_")[0] + "_none"
        return middle(runs, value, image=image, tiles=tiles) - middle(runs, value, image=none, tiles=tiles)

    columns = ["", *(str(tiles) for tiles in TILES)]
    measures: dict[str, Callable[[Run], float]] = {"misses": Run.misses, "messages": messages}
    panels = []
    for label, measure in measures.items():
        found = {
            name: [above_none(f"lock_{name}", tiles, measure) / ACQUISITIONS for tiles in TILES] for name in LOCKS
        }
        rows = [[name, *(number(value, 1) for value in found[name])] for name in LOCKS]
        study.table(f"Locks: {label} for each acquisition, over the number of tiles.", columns, rows)
        panels.append(Panel(f"{label} an acquisition", [line(name, found[name]) for name in LOCKS]))
    rows = [
        [name, *(number(above_none(f"lock_{name}", tiles, Run.clock) / ACQUISITIONS) for tiles in TILES)]
        for name in LOCKS
    ]
    study.table("Locks: cycles for each acquisition (the clock of the last tile). Not a machine's order: see above.", columns, rows)
    for label, measure in measures.items():
        rows = [
            [name, *(number(above_none(f"barrier_{name}", tiles, measure) / ROUNDS / tiles, 1) for tiles in TILES)]
            for name in BARRIERS
        ]
        study.table(f"Barriers: {label} for each wait of a thread, over the number of tiles.", columns, rows)
    rows = [
        [name, *(number(above_none(f"barrier_{name}", tiles, Run.clock) / ROUNDS) for tiles in TILES)]
        for name in BARRIERS
    ]
    study.table("Barriers: cycles for each round. Not a machine's order: see above.", columns, rows)
    study.picture("Four locks: what an acquisition takes", "tiles", [str(tiles) for tiles in TILES], panels)
    study.finish()


if __name__ == "__main__":
    main()
