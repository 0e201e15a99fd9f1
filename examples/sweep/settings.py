"""The settings of docs/SETTINGS.md: defaults, ranges, and the lists of values that options give.

What is wrong ends the program with one line on standard error and status 2.
"""

import argparse
import re
import sys
import tomllib
from pathlib import Path
from typing import NoReturn

Value = int | str
Settings = dict[str, Value]

POLICIES = ("lax", "barrier", "p2p")
MOST_VALUES = 10_000

# The settings, their defaults, and the least and the greatest value of each.
TABLE: dict[str, tuple[Value, int, int]] = {
    "tiles": (4, 1, 64),
    "hosts": (1, 1, 8),
    "sets": (16, 1, 1024),
    "ways": (4, 1, 16),
    "stack_bytes": (65536, 4096, 1048576),
    "heap_bytes": (1048576, 0, 67108864),
    "alu_cost": (1, 1, 1000000),
    "mul_cost": (3, 1, 1000000),
    "div_cost": (20, 1, 1000000),
    "mem_cost": (1, 1, 1000000),
    "amo_cost": (4, 1, 1000000),
    "call_cost": (20, 0, 1000000),
    "spawn_cost": (100, 0, 1000000),
    "hop_cost": (2, 0, 1000000),
    "directory_cost": (6, 0, 1000000),
    "memory_cost": (60, 0, 1000000),
    "policy": ("lax", 0, 0),
    "quantum": (1000, 1, 1000000000),
    "slack": (100000, 0, 1000000000),
    "interval": (10000, 1, 1000000000),
    "events": (1000000, 1, 1000000),
    "seed": (1, 0, 2**63 - 1),
}
DEFAULTS: Settings = {key: row[0] for key, row in TABLE.items()}
PAGES = ("stack_bytes", "heap_bytes")  # multiples of 4096


def refuse(words: str) -> NoReturn:
    """Ends with one line."""
    print(f"{Path(sys.argv[0]).name}: {words}", file=sys.stderr)
    sys.exit(2)


def checked(key: str, value: object) -> Value:
    """The value, if the setting may have it."""
    default, least, most = TABLE[key]
    if isinstance(default, str):
        if value not in POLICIES:
            refuse(f"{key}: {value!r} is none of {', '.join(POLICIES)}")
        return str(value)
    if not isinstance(value, int) or isinstance(value, bool) or not least <= value <= most:
        refuse(f"{key}: {value!r} isn't a number from {least} to {most}")
    if key in PAGES and value % 4096 != 0:
        refuse(f"{key}: {value} isn't a multiple of 4096")
    return value


def values_of(key: str, words: str) -> list[Value]:
    """The values that an option gives to a setting: numbers, ranges as 1-5, or names, with commas between them."""
    if isinstance(DEFAULTS[key], str):
        return [checked(key, word) for word in words.split(",")]
    values: list[Value] = []
    for word in words.split(","):
        if not re.fullmatch(r"[0-9]{1,19}(-[0-9]{1,19})?", word):
            refuse(f"{key}: {word!r} is neither a number nor a range")
        first, _, last = word.partition("-")
        if last and int(last) < int(first):
            refuse(f"{key}: the range {word} ends before it begins")
        if int(last or first) - int(first) >= MOST_VALUES:
            refuse(f"{key}: the range {word} has more than {MOST_VALUES} values")
        values += [checked(key, number) for number in range(int(first), int(last or first) + 1)]
    if len(set(values)) < len(values):
        refuse(f"{key}: {words} has a value twice")
    return values


def settings_file(path: Path) -> Settings:
    """The settings that a file gives."""
    try:
        found = tomllib.loads(path.read_text())
    except OSError as error:
        refuse(f"{path}: {error.strerror}")
    except (tomllib.TOMLDecodeError, UnicodeDecodeError) as error:
        refuse(f"{path}: {error}")
    for key, value in found.items():
        if key not in TABLE:
            refuse(f"{path}: there is no setting {key}")
        checked(key, value)
    return found


def add_options(parser: argparse.ArgumentParser) -> None:
    """An option for each setting."""
    for key in TABLE:
        parser.add_argument(f"--{key.replace('_', '-')}", dest=key, metavar="LIST", help=argparse.SUPPRESS)


def lists_of(options: argparse.Namespace) -> dict[str, list[Value]]:
    """The lists of values that the options give, in the table's order."""
    found = {key: getattr(options, key) for key in TABLE}
    return {key: values_of(key, words) for key, words in found.items() if words is not None}


def as_toml(settings: Settings) -> str:
    """A settings file."""
    return "".join(f'{key} = "{value}"\n' if isinstance(value, str) else f"{key} = {value}\n" for key, value in settings.items())
