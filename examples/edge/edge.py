#!/usr/bin/env python3
"""Tries what the system can do to a call: outputs that are closed, full or read by nobody, and names that are no plain files.

    edge.py [--tilesim PROGRAM]

For each case it compares the status, the text, standard error and every name of the folder before and after with what
docs/WORDS.md says. It prints a line a case, and ends with status 1 if one isn't as it should be. It needs Linux and Python alone;
where root runs it, the cases of files without rights run as another user.
"""

import argparse
import os
import resource
import shutil
import signal
import struct
import subprocess
import sys
import tempfile
from dataclasses import dataclass, field
from pathlib import Path
from typing import Callable

ROOT = Path(__file__).resolve().parents[2]
TILESIM = ROOT / "crates/tilesim/out/tilesim"
NOBODY = 65_534
HOSTILE = b"name\xff"

DONE, USAGE, BAD_SETTING, BAD_IMAGE, BAD_JOURNAL, READ_FAULT, WRITE_FAULT = 0, 4, 5, 6, 7, 8, 9


def image_of(code: list[int], zeros: int) -> bytes:
    """An executable whose code stands at 0x10120, with so many zeros at 0x20000, by the ELF format."""
    body = b"".join(struct.pack("<I", word) for word in code)
    size = 0x120 + len(body)
    start = b"\x7fELF\x02\x01\x01" + bytes(9)
    start += struct.pack("<HHIQQQIHHHHHH", 2, 243, 1, 0x10120, 64, 0, 0, 64, 56, 2, 0, 0, 0)
    headers = struct.pack("<IIQQQQQQ", 1, 5, 0, 0x10000, 0x10000, size, size, 4096)
    headers += struct.pack("<IIQQQQQQ", 1, 6, 0, 0x20000, 0x20000, 0, zeros, 4096)
    return (start + headers).ljust(0x120, b"\0") + body


EXIT = [0x05D00893, 0x00000513, 0x00000073]  # a7 = 93, a0 = 0, ecall
# More than a pipe holds: s0 = 50; a7 = 64, a0 = 1, a1 = 0x20000, a2 = 4096, ecall, s0 -= 1, again where s0 isn't 0
WRITE_OFTEN = [0x03200413, 0x04000893, 0x00100513, 0x000205B7, 0x00001637, 0x00000073, 0xFFF40413, 0xFE0414E3]

REPORT = """== tilesim ==
end: exit 0
events: 6
tile 0: clock 2 instr 3 hits 0 misses 0
tile 1: clock 0 instr 0 hits 0 misses 0
tile 2: clock 0 instr 0 hits 0 misses 0
tile 3: clock 0 instr 0 hits 0 misses 0
total: instr 3 hits 0 misses 0
""".encode()

# Three steps of tile 0, the delivery of its exit to the local server, node 5, and of that server's word to the control
# server, node 4, and the control server's step.
JOURNAL = b"TILEJNL1" + struct.pack("<Q", 6) + bytes([0, 255, 0, 255, 0, 255, 5, 0, 4, 5, 4, 255])


@dataclass
class Case:
    """A call, and what must come of it."""

    name: str
    words: list[bytes | str]
    status: int
    text: bytes | None = b""  # None: some of the whole text, from its start
    writes: dict[str, bytes | None] = field(default_factory=dict)  # what the names that are written hold; None: anything
    output: str = "kept"  # how standard output is: see `output_of`
    closed: tuple[int, ...] = ()  # the descriptors that are closed before the call
    as_nobody: bool = False
    most_bytes: int | None = None  # how long a file may become


def failed(fault: str) -> bytes:
    """The line of a refusal."""
    return f"tilesim: {fault}\n".encode()


READ = failed("read fault")


def cases_of_output() -> list[Case]:
    """Outputs that can't be written."""
    run = ["run", "exit.elf"]
    with_journal = [*run, "--journal", "out"]
    cases = [Case("as it should be", run, DONE, REPORT), Case("with a journal", with_journal, DONE, REPORT, {"out": JOURNAL})]
    for output in ("closed", "full", "nobody reads", "for reading"):
        cases.append(Case(f"output {output}, run", run, WRITE_FAULT, output=output))
        cases.append(Case(f"output {output}, run with a journal", with_journal, WRITE_FAULT, output=output))
        cases.append(Case(f"output {output}, replay", ["replay", "exit.elf", "journal"], WRITE_FAULT, output=output))
        cases.append(Case(f"output {output}, gen", ["gen", "lock", "1", "out"], DONE, writes={"out": None}, output=output))
        cases.append(Case(f"output {output}, bench", ["bench", "1"], WRITE_FAULT, output=output))
        cases.append(Case(f"output {output}, words without meaning", ["fly"], WRITE_FAULT, output=output))
        cases.append(Case(f"output {output}, a bad image", ["run", "empty"], WRITE_FAULT, output=output))
    cases += [
        Case("a pipe that is closed amid the text", ["run", "long.elf", "--journal", "out"], WRITE_FAULT, None, output="amid"),
        Case("standard input closed", with_journal, DONE, REPORT, {"out": JOURNAL}, closed=(0,)),
        Case("standard error closed", with_journal, DONE, REPORT, {"out": JOURNAL}, closed=(2,)),
        Case("input and error closed", with_journal, DONE, REPORT, {"out": JOURNAL}, closed=(0, 2)),
        Case("all three closed", with_journal, WRITE_FAULT, closed=(0, 1, 2)),
        Case("a journal that may have 20 bytes", with_journal, WRITE_FAULT, REPORT, {"out": JOURNAL[:20]}, most_bytes=20),
        Case("an image that may have 20 bytes", ["gen", "lock", "1", "out"], WRITE_FAULT, writes={"out": None}, most_bytes=20),
    ]
    return cases


# Names that can't be read, and what each is.
UNREADABLE = {
    "folder": "a folder",
    "absent": "a name that isn't there",
    "absent/x": "a name in a folder that isn't there",
    "exit.elf/x": "a name in a file",
    "nowhere": "a link that leads nowhere",
    "loop": "a link to itself",
    "n" * 256: "a name of 256 bytes",
    "/proc/self/mem": "a file whose read fails",
}

# Names that can't be written. A link that leads nowhere can: its target is made.
UNWRITABLE = {
    "folder": "a folder",
    "absent/x": "a name in a folder that isn't there",
    "exit.elf/x": "a name in a file",
    "loop": "a link to itself",
    "n" * 256: "a name of 256 bytes",
    "/dev/full": "a full disk",
}


def cases_of_names() -> list[Case]:
    """Names that are no plain files."""
    cases = []
    for name, what in UNREADABLE.items():
        cases.append(Case(f"{what} as the image", ["run", name, "--journal", "out"], READ_FAULT, READ))
        cases.append(Case(f"{what} as the settings", ["run", "exit.elf", "--config", name], READ_FAULT, READ))
        cases.append(Case(f"{what} as the journal to replay", ["replay", "exit.elf", name], READ_FAULT, READ))
    for name, what in UNWRITABLE.items():
        cases.append(Case(f"{what} as the journal to write", ["run", "exit.elf", "--journal", name], WRITE_FAULT, REPORT))
        cases.append(Case(f"{what} as the image to write", ["gen", "lock", "1", name], WRITE_FAULT))
    for words in (["run", HOSTILE], ["run", "exit.elf", "--config", HOSTILE], ["run", "exit.elf", "--journal", HOSTILE]):
        cases.append(Case(f"a name that isn't UTF-8, {words[-2]!s}", words, USAGE, failed("usage")))
    cases.append(Case("a name that isn't UTF-8, replay", ["replay", "exit.elf", HOSTILE], USAGE, failed("usage")))
    cases.append(Case("a name that isn't UTF-8, gen", ["gen", "lock", "1", HOSTILE], USAGE, failed("usage")))
    return cases + cases_of_devices() + cases_of_rights() + cases_of_one_name()


def cases_of_devices() -> list[Case]:
    """Devices in the place of files."""
    zero = "/dev/zero"
    return [
        Case("/dev/zero as the image", ["run", zero], BAD_IMAGE, failed("bad image TooLong")),
        Case("/dev/zero as the settings", ["run", "exit.elf", "--config", zero], BAD_SETTING, failed("bad setting length")),
        Case("/dev/zero as the journal to replay", ["replay", "exit.elf", zero], BAD_JOURNAL, failed("journal too long")),
        Case("/dev/null as the image", ["run", "/dev/null"], BAD_IMAGE, failed("bad image Short")),
        Case("/dev/null as the settings", ["run", "exit.elf", "--config", "/dev/null"], DONE, REPORT),
        Case("/dev/null as the journal to replay", ["replay", "exit.elf", "/dev/null"], BAD_JOURNAL, failed("bad journal byte 0")),
        Case("/dev/null as the journal to write", ["run", "exit.elf", "--journal", "/dev/null"], DONE, REPORT),
        Case("the output as the journal to write", ["run", "exit.elf", "--journal", "/dev/stdout"], DONE, REPORT + JOURNAL),
    ]


def cases_of_rights() -> list[Case]:
    """Files without rights."""
    return [
        Case("an image without rights", ["run", "secret"], READ_FAULT, READ, as_nobody=True),
        Case("settings without rights", ["run", "exit.elf", "--config", "secret"], READ_FAULT, READ, as_nobody=True),
        Case("a journal without rights", ["replay", "exit.elf", "secret"], READ_FAULT, READ, as_nobody=True),
        Case("a journal to write, without rights", ["run", "exit.elf", "--journal", "secret"], WRITE_FAULT, REPORT, as_nobody=True),
        Case("an image to write, without rights", ["gen", "lock", "1", "secret"], WRITE_FAULT, as_nobody=True),
        Case("a folder without rights to make a file", ["gen", "lock", "1", "closed/out"], WRITE_FAULT, as_nobody=True),
    ]


def cases_of_one_name() -> list[Case]:
    """Names for two things, and links."""
    run = ["run", "exit.elf"]
    return [
        Case("the image's name for the journal", [*run, "--journal", "exit.elf"], DONE, REPORT, {"exit.elf": JOURNAL}),
        Case(
            "the settings' name for the journal",
            [*run, "--config", "settings", "--journal", "settings"],
            DONE,
            REPORT,
            {"settings": JOURNAL},
        ),
        Case("the image's name for the settings", [*run, "--config", "exit.elf"], BAD_SETTING, failed("bad setting text")),
        Case("the image as the journal to replay", ["replay", "exit.elf", "exit.elf"], BAD_JOURNAL, failed("bad journal byte 0")),
        Case("the journal as the image", ["run", "journal"], BAD_IMAGE, failed("bad image Short")),
        Case("a link to the image", ["run", "link", "--journal", "out"], DONE, REPORT, {"out": JOURNAL}),
        Case("a link to the image for the journal", [*run, "--journal", "link"], DONE, REPORT, {"exit.elf": JOURNAL}),
        Case("a link that leads nowhere for the journal", [*run, "--journal", "nowhere"], DONE, REPORT, {"made": JOURNAL}),
        Case("a name with a blank and a line's end", [*run, "--journal", "a b\nc"], DONE, REPORT, {"a b\nc": JOURNAL}),
    ]


def lay_out(folder: Path) -> None:
    """Makes the folder that a case begins with."""
    (folder / "exit.elf").write_bytes(image_of(EXIT, 0))
    (folder / "long.elf").write_bytes(image_of(WRITE_OFTEN + EXIT, 4096))
    (folder / "journal").write_bytes(JOURNAL)
    (folder / "settings").write_bytes(b"tiles = 4\n")
    (folder / "empty").write_bytes(b"")
    (folder / "folder").mkdir()
    (folder / "closed").mkdir(mode=0o555)
    (folder / "link").symlink_to("exit.elf")
    (folder / "nowhere").symlink_to("made")
    (folder / "loop").symlink_to("loop")
    (folder / "secret").write_bytes(b"secret")
    (folder / "secret").chmod(0)
    folder.chmod(0o755)


def held_by(folder: Path) -> dict[str, bytes | str]:
    """Every name of a folder, and what it holds."""
    held: dict[str, bytes | str] = {}
    for path in folder.rglob("*"):
        name = str(path.relative_to(folder))
        if path.is_symlink():
            held[name] = f"link to {os.readlink(path)}"
        elif path.is_dir():
            held[name] = "folder"
        elif os.access(path, os.R_OK):
            held[name] = path.read_bytes()
        else:
            held[name] = f"{path.stat().st_size} bytes that aren't read"
    return held


def output_of(kind: str) -> tuple[int, int | None]:
    """The descriptor that is standard output, and the one that it is read by."""
    if kind == "full":
        return os.open("/dev/full", os.O_WRONLY), None
    if kind == "for reading":
        return os.open("/dev/null", os.O_RDONLY), None
    reader, writer = os.pipe()
    if kind in ("nobody reads", "closed"):
        os.close(reader)
        return writer, None
    return writer, reader


def read_all(reader: int | None, most: int | None) -> bytes:
    """What stands in a pipe up to its end, or so many bytes of it, after which it is closed."""
    text = b""
    while reader is not None and (most is None or len(text) < most):
        piece = os.read(reader, 65_536 if most is None else most - len(text))
        if not piece:
            break
        text += piece
    if reader is not None:
        os.close(reader)
    return text


def prepared(case: Case) -> Callable[[], None]:
    """What the new process does before the call."""

    def prepare() -> None:
        if case.as_nobody and os.getuid() == 0:
            os.setgroups([])
            os.setgid(NOBODY)
            os.setuid(NOBODY)
        if case.most_bytes is not None:
            signal.signal(signal.SIGXFSZ, signal.SIG_IGN)  # or else the system ends the program by it
            resource.setrlimit(resource.RLIMIT_FSIZE, (case.most_bytes, case.most_bytes))
        for descriptor in case.closed + ((1,) if case.output == "closed" else ()):
            os.close(descriptor)

    return prepare


def wrong_of(program: Path, case: Case, folder: Path) -> list[str]:
    """Makes a call, and says what isn't as it should be."""
    lay_out(folder)
    wanted = held_by(folder) | case.writes
    writer, reader = output_of(case.output)
    called = subprocess.Popen(
        [program, *case.words],
        cwd=folder,
        stdin=subprocess.DEVNULL,
        stdout=writer,
        stderr=subprocess.PIPE,
        preexec_fn=prepared(case),
    )
    os.close(writer)
    text = read_all(reader, 7 if case.output == "amid" else None)
    told = called.communicate()[1]
    held = held_by(folder)
    wrong = []
    if called.returncode != case.status:
        wrong.append(f"status {called.returncode}, not {case.status}")
    if case.text is not None and text != case.text:
        wrong.append(f"text {text[:60]!r}")
    if told:
        wrong.append(f"standard error {told[:60]!r}")
    for name in sorted(wanted.keys() | held.keys()):
        is_kept = name in held and name in wanted and (wanted[name] is None or held[name] == wanted[name])
        if not is_kept:
            wrong.append(f"the name {name!r}")
    return wrong


def runnable(program: Path, folder: Path) -> Path:
    """A copy of the program that any user may run."""
    copy = folder / "tilesim"
    shutil.copy(program, copy)
    copy.chmod(0o755)
    folder.chmod(0o755)
    return copy


def main() -> int:
    """Tries each case."""
    parser = argparse.ArgumentParser(description="Tries what the system can do to a call.")
    parser.add_argument("--tilesim", type=Path, default=TILESIM, help="the built program")
    given = parser.parse_args()
    count = 0
    with tempfile.TemporaryDirectory() as name:
        program = runnable(given.tilesim, Path(name))
        cases = cases_of_output() + cases_of_names()
        for place, case in enumerate(cases):
            folder = Path(name) / str(place)
            folder.mkdir()
            wrong = wrong_of(program, case, folder)
            count += bool(wrong)
            print(f"{case.name}: " + (", ".join(wrong) if wrong else f"status {case.status}"))
    print(f"{len(cases)} cases, {count} not as they should be")
    return 1 if count else 0


if __name__ == "__main__":
    sys.exit(main())
