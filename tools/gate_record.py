"""What a run of each command took when it was measured last, as docs/times.json has it.

The seconds of processor of each crate's proof are there, and of each command, by how many
processors it had, the seconds by the clock and of processor. A fixed check, which depends on no
file of the repository, was timed beside: machines and moments are compared by it. At which commit
all wrong bodies of a version were tried is there too.
"""
import json
import os
import subprocess
import time
from statistics import median

import crates

TIMES = crates.TOP / "docs" / "times.json"
# what a crate may take beyond its share, and from how many seconds more on that is told
SLOWER, NOTED = 1.2, 10
# how many crates there have to be for a share
ENOUGH = 5


def read():
    """The record: the seconds of each crate, and what each command took."""
    return json.loads(TIMES.read_text()) if TIMES.is_file() else {"crates": {}, "commands": {}}


def write(record):
    TIMES.write_text(json.dumps(record, indent=1) + "\n")


def version():
    return (crates.TOP / "VERSION").read_text().strip()


def mutants():
    """At which commit all wrong bodies were tried last, of which version, and when."""
    return read().get("mutants", {})


def note_mutants():
    """Notes that all wrong bodies were tried, and each was refused."""
    words = ["git", "rev-parse", "--short", "HEAD"]
    commit = subprocess.run(words, cwd=crates.TOP, capture_output=True, text=True).stdout.strip()
    today = time.strftime("%Y-%m-%d")
    write(read() | {"mutants": {"version": version(), "commit": commit, "date": today}})


def minutes(seconds):
    return f"{seconds / 60:.0f} min"


def expected(command):
    """How long a command takes from nothing, by the record."""
    runs = read()["commands"].get(command)
    if not runs:
        return f"There is no record of what `{command}` takes."
    mine = len(os.sched_getaffinity(0))
    count = min(runs, key=lambda it: abs(int(it) - mine))
    run = runs[count]
    return (f"From nothing `{command}` took {minutes(run['clock'])} by the clock on {count}"
            f" processors, {minutes(run['processor'])} of processor.")


def slower(seconds):
    """The crates whose proofs took a fifth more than the record has, each as a line; a run on a
    slower machine counts by the median of what its crates took more."""
    known = read()["crates"]
    shares = {it: seconds[it] / known[it] for it in seconds if known.get(it)}
    usual = median(shares.values()) if len(shares) >= ENOUGH else 1
    for crate, share in sorted(shares.items()):
        wanted = known[crate] * usual
        if share > SLOWER * usual and seconds[crate] > wanted + NOTED:
            yield f"{crate} took {seconds[crate]:.0f} s to prove, and by the record {wanted:.0f}."
