"""A program of this repository beside the oracle, for `compare`, `moves`, `sums`, `figures` and `loads`: how both run, and how a differing
file is made small.

Programs are crates/NAME/out/NAME (`rt run` in crates/NAME makes one), the oracle is target/release/oracle (`cargo build --release` in this folder).
"""
import os
import pathlib
import platform
import shutil
import struct
import subprocess
import sys

HERE = pathlib.Path(__file__).resolve().parent
ORACLE = HERE / "target/release/oracle"
CRATES = HERE.parent / "crates"


def program(name):
    """The words that run a program. It is compiled for x86-64; on any other machine the kit's emulator runs it, as `rt` does."""
    machine = platform.machine()
    if machine == "x86_64":
        return [CRATES / name / "out" / name]
    kit = os.environ.get("RATTLE_HOME") or pathlib.Path(shutil.which("rt")).resolve().parent.parent
    tools = pathlib.Path(kit) / "on" / machine / "toolchain"
    return [tools / "bin/qemu-x86_64", tools / "lib/ld-linux-x86-64.so.2", "--library-path", tools / "lib", CRATES / name / "out" / name]


def run(command, data=b"", folder=None):
    return subprocess.run([str(word) for word in command], input=data, capture_output=True, check=False, cwd=folder)


def both(name, data, *words):
    """What a program and the oracle print of a file on standard output and on standard error."""
    ended = run([*program(name), *words], data), run([ORACLE, name, *words], data)
    return [(one.stdout, one.stderr) for one in ended]


def without_rows(data, start, count):
    """The file without some of its script rows; None where its contents cannot be read."""
    if len(data) < 32:
        return None
    at, size = struct.unpack_from("<II", data, 24)
    if at + size != len(data) or size % 8:
        return None
    rows = data[at:]
    rows = rows[: start * 8] + rows[(start + count) * 8 :]
    return data[:24] + struct.pack("<II", at, len(rows)) + data[32:at] + rows


def smaller(whole, differ, without=without_rows):
    """A file with fewer rows, or a list of files with fewer files, that still differs."""
    step = max(1, len(whole) // 2)
    while step:
        start = 0
        while (shorter := without(whole, start, step)) is not None and len(shorter) < len(whole):
            if differ(shorter):
                whole = shorter
            else:
                start += step
        step //= 2
    return whole


def saved(data, differ, name):
    """Writes the file, made small, below target, and answers where."""
    path = HERE / "target" / f"{name}.bench"
    path.write_bytes(smaller(data, differ))
    return path


def seed_and_count(*names):
    """The two arguments, where both are numbers and all programs are there."""
    if len(sys.argv) != 3 or not all(word.isdigit() for word in sys.argv[1:]):
        sys.exit(f"usage: {pathlib.Path(sys.argv[0]).name} SEED COUNT")
    for path in (ORACLE, *(CRATES / name / "out" / name for name in names)):
        if not path.exists():
            sys.exit(f"{path} is not there; see the head of {HERE / 'beside.py'}")
    return int(sys.argv[1]), int(sys.argv[2])
