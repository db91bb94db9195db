"""Runs the built program with an outside that fails: memory, reads and writes, by `outside.c`, which needs gcc."""

import argparse
import os
import pathlib
import subprocess
import sys
from dataclasses import dataclass

ROOT = pathlib.Path(__file__).resolve().parent.parent.parent
PROGRAM = ROOT / "crates" / "locus_cli" / "out" / "locus_cli"
SECONDS = 300


@dataclass(frozen=True)
class Ended:
    """How a run ended: its status, which is negative if a signal ended it, and what it printed."""

    status: int | None
    out: bytes
    err: bytes


class Outside:
    """The program in a folder, with or without faults of the outside."""

    def __init__(self, program, folder):
        self.program = program
        self.folder = pathlib.Path(folder)
        self.library = self.folder / "outside.so"
        made = subprocess.run(["gcc", "-O2", "-shared", "-fPIC", "-o", self.library,
                               ROOT / "tests" / "outside" / "outside.c"])
        if made.returncode != 0:
            sys.exit("outside.c was not compiled")
        self.mark = self.folder / "mark"

    def run(self, words, faults=None, stdout=subprocess.PIPE, stderr=subprocess.PIPE, closing=""):
        """How a run ends under these faults; `>&-` and `2>&-` close an output before it begins."""
        settings = {}
        if faults:
            settings = {name: str(value) for name, value in faults.items()}
            settings |= {"LD_PRELOAD": str(self.library), "OUTSIDE_MARK": str(self.mark)}
        self.mark.unlink(missing_ok=True)
        try:
            call = ["sh", "-c", f'exec "$0" "$@" {closing}', self.program, *words] if closing else [self.program, *words]
            ended = subprocess.run(call, cwd=self.folder, env=os.environ | settings, stdout=stdout, stderr=stderr,
                                   stdin=subprocess.DEVNULL, timeout=SECONDS)
        except subprocess.TimeoutExpired:
            return Ended(None, b"", b"")
        return Ended(ended.returncode, ended.stdout or b"", ended.stderr or b"")

    def met_a_fault(self):
        """Whether a fault came in the last run."""
        return self.mark.exists()


def arguments(description, **more):
    """The arguments of a script, with the program that is to be run, which is built if no other is named."""
    words = argparse.ArgumentParser(description=description)
    words.add_argument("--program", type=pathlib.Path, help="another program")
    for name, settings in more.items():
        words.add_argument(f"--{name}", **settings)
    given = words.parse_args()
    if not given.program and subprocess.run([ROOT / "build"], stdin=subprocess.DEVNULL).returncode != 0:
        sys.exit("the program was not built")
    given.program = (given.program or PROGRAM).resolve()
    return given


def example(name):
    """The bytes of an example."""
    return (ROOT / "examples" / f"{name}.toml").read_bytes()
