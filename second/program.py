"""The program that this one is compared with: a command, and the lines that it prints for cases."""

import shlex
import subprocess
from pathlib import Path

ROOT = Path(__file__).resolve().parent.parent

PROVED = "bin/vectors"


def printed(command, streams):
    """The lines that the command prints for cases, given as bytes, and what is wrong with its run, as text."""
    try:
        run = subprocess.run(shlex.split(command), input=b"".join(streams), stdout=subprocess.PIPE, cwd=ROOT)
    except OSError as error:
        return [], [f"{command} can't be run: {error}"]
    *lines, _ = run.stdout.decode(errors="replace").split("\n")
    faults = []
    if run.returncode:
        faults.append(f"{command} ended with status {run.returncode}")
    if len(lines) != len(streams):
        faults.append(f"{command} printed {len(lines)} lines for {len(streams)} cases")
    return lines, faults
