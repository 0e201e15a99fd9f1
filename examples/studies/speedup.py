#!/usr/bin/env python3
"""How the kernels speed up over 1 to 64 tiles."""

from study import KERNELS, TILES, Panel, Run, begin, line, middle, number

SEEDS = (1, 2, 3)


def main() -> None:
    """Makes the study."""
    study = begin("speedup", __doc__)
    names = (*KERNELS, "start")
    runs = study.run([(name, {"tiles": tiles, "seed": seed}) for name in names for tiles in TILES for seed in SEEDS])
    clock = {(name, tiles): middle(runs, Run.clock, image=name, tiles=tiles) for name in names for tiles in TILES}
    speedup = {name: [clock[name, 1] / clock[name, tiles] for tiles in TILES] for name in KERNELS}

    def without_start(name: str) -> list[float]:
        alone = clock[name, 1] - clock["start", 1]
        return [alone / (clock[name, tiles] - clock["start", tiles]) for tiles in TILES]

    columns = ["kernel", *(f"{tiles}" for tiles in TILES)]
    rows = [[name, *(number(value, 2) for value in speedup[name])] for name in KERNELS]
    study.table("Speed-up: the clock of the last tile on one tile, over that on so many tiles.", columns, rows)
    rows = [[name, *(number(value, 2) for value in without_start(name))] for name in KERNELS]
    study.table("The same without the time that starting and joining the threads takes (the program `start`).", columns, rows)
    rows = [[name, *(number(clock[name, tiles]) for tiles in TILES)] for name in names]
    study.table("The clock of the last tile, in cycles.", columns, rows)
    rows = [[name, *(number(middle(runs, lambda run: run.events, image=name, tiles=tiles)) for tiles in TILES)] for name in names]
    study.table("Events that all nodes made together.", columns, rows)
    panels = [
        Panel("speed-up", [line(name, speedup[name]) for name in KERNELS]),
        Panel("without start and join", [line(name, without_start(name)) for name in KERNELS]),
    ]
    study.picture("Speed-up of eight kernels", "tiles", [str(tiles) for tiles in TILES], panels)
    study.finish()


if __name__ == "__main__":
    main()
