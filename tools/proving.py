"""Crates that `rt ci` proves in a copy of the repository, with a line for each as it is proved."""
import re
import subprocess
import time
from collections import deque

# how many of the prover's last lines are shown where it fails
SHOWN = 40
# what `rt ci` says of a crate once it is done with it
TOLD = re.compile(r"rt: (\w+) (proved|is kept|NOT PROVED)")


class Failed(Exception):
    """What failed, and the last lines of what was said of it."""


def since(start):
    minutes, seconds = divmod(int(time.monotonic() - start), 60)
    return f"{minutes} min {seconds} s"


def told(lines, count, start):
    """Goes through what `rt ci` says, prints a line for each crate that is proved, and yields it;
    of each other one the end of what was said. Returns the last other lines."""
    done, talk = 0, deque(maxlen=SHOWN)
    for line in lines:
        if line.startswith("== "):
            talk.clear()
        crate = TOLD.match(line)
        if not crate:
            talk.append(line)
        elif crate[2] == "NOT PROVED":
            print(f"{crate[1]} is not proved; the end of what was said of it:\n", *talk, sep="")
        else:
            done += 1
            when = "" if crate[2] == "proved" else " by an earlier run"
            print(f"[{done:2}/{count}] {crate[1]} proved{when}, {since(start)}", flush=True)
            yield crate[1]
    return talk


def proved(folder, count, words=()):
    """Has `rt ci` prove the copy in a folder, and yields each crate that is proved. It is ended
    where it has not ended by itself."""
    how = {"stdin": subprocess.DEVNULL, "stdout": subprocess.PIPE, "stderr": subprocess.STDOUT}
    ran = subprocess.Popen(["rt", "ci", *words], cwd=folder, text=True, errors="replace", **how)
    try:
        talk = yield from told(ran.stdout, count, time.monotonic())
        if ran.wait():
            raise Failed(f"`rt ci` ended with status {ran.returncode}; the end of it:\n", *talk)
    finally:
        ran.terminate()
        ran.wait()
