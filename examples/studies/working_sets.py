#!/usr/bin/env python3
"""The working sets of the kernels: the miss rate over the size of a tile's cache, with 1 and 4 ways, on 1 and 16 tiles."""

from study import KERNELS, Panel, Run, begin, line, middle, number

SIZES = (256, 512, 1024, 2048, 4096, 8192, 16384, 32768, 65536)
WAYS = (1, 4)
TILES = (1, 16)
LINE_BYTES = 64


def label(size: int) -> str:
    """A size in bytes."""
    return f"{size // 1024} KB" if size >= 1024 else f"{size} B"


def main() -> None:
    """Makes the study."""
    study = begin("working_sets", __doc__)
    todo = [
        (name, {"tiles": tiles, "ways": ways, "sets": size // LINE_BYTES // ways})
        for name in KERNELS
        for tiles in TILES
        for ways in WAYS
        for size in SIZES
    ]
    runs = study.run(todo)

    def rates(name: str, tiles: int, ways: int) -> list[float]:
        sets = [size // LINE_BYTES // ways for size in SIZES]
        return [middle(runs, Run.miss_rate, image=name, tiles=tiles, ways=ways, sets=count) for count in sets]

    for tiles in TILES:
        for ways in WAYS:
            rows = [[name, *(number(value, 2) for value in rates(name, tiles, ways))] for name in KERNELS]
            title = f"Misses in 100 accesses: tiles {tiles}, ways {ways}."
            study.table(title, ["kernel", *map(label, SIZES)], rows)
    panels = [
        Panel(f"misses, {tiles} tile{'s' * (tiles > 1)} (%)", [line(name, rates(name, tiles, 4)) for name in KERNELS])
        for tiles in TILES
    ]
    study.picture("Miss rate over the cache of a tile, 4 ways", "cache", list(map(label, SIZES)), panels)
    study.finish()


if __name__ == "__main__":
    main()
