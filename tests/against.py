"""A program held to the second implementation, byte by byte. Whatever is imported after this is looked for in reference/ first."""

import io
import multiprocessing
import os
import pathlib
import subprocess
import sys

sys.path.insert(0, str(pathlib.Path(__file__).parent.parent / "reference"))

from script import lines_of  # noqa: E402


class Different(Exception):
    """No exit: in a worker of a pool that would leave the others waiting for it."""


def pool():
    """A worker for each core that this process may use."""
    return multiprocessing.Pool(len(os.sched_getaffinity(0)))


def reference_output(run, script):
    return "".join(line + "\n" for line in run(lines_of(io.BytesIO(script)))).encode()


def compared(command, run, script):
    """The output of both for the script, line by line; stops at the first difference."""
    program = subprocess.run(command, input=script, stdout=subprocess.PIPE, check=True).stdout
    reference = reference_output(run, script)
    if program == reference:
        return reference.splitlines()
    for at, (ours, theirs) in enumerate(zip(program.split(b"\n"), reference.split(b"\n"))):
        if ours != theirs:
            raise Different(f"output line {at + 1}: DIFFERENT\n{ours[:2000]!r}\n{theirs[:2000]!r}")
    raise Different("one output goes on: DIFFERENT")


def in_order(seen, keys):
    return ", ".join(f"{key} {seen[key]}" for key in keys if seen[key])
