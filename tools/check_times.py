"""What the checks of the prover take of the processors, by crate, while tools/prove_all runs."""
import json
import os
import resource
from collections import defaultdict
from pathlib import Path
from threading import Event, Thread

import crates

TIMES = crates.TOP / "build" / "times.json"
TICKS = os.sysconf("SC_CLK_TCK")
# how often it looks, in seconds: a figure is short of the truth by at most this for each check
PAUSE = 0.5


class Watch:
    """Looks at the checks that this process started, until its block ends; then adds to TIMES the
    seconds that each crate took, for proofs and for wrong bodies, and that all else took."""

    def __init__(self, anew):
        self.anew, self.seen, self.ended = anew, {}, Event()
        self.thread = Thread(target=self.run, daemon=True)

    def __enter__(self):
        self.thread.start()
        return self

    def __exit__(self, *_):
        self.ended.set()
        self.thread.join()
        TIMES.parent.mkdir(exist_ok=True)
        TIMES.write_text(json.dumps(self.times(), indent=1) + "\n")

    def run(self):
        while not self.ended.wait(PAUSE):
            look(self.seen)

    @property
    def proofs(self):
        """The seconds that the proof of each crate took."""
        found = defaultdict(float)
        for crate, kind, seconds in self.seen.values():
            if kind == "proofs":
                found[crate] += seconds
        return found

    def times(self):
        """The seconds of each crate. A run that takes something from earlier ones only counts
        where it took longer than they did."""
        found = {} if self.anew else read()
        used = resource.getrusage(resource.RUSAGE_CHILDREN)
        checks = sum(seconds for _, _, seconds in self.seen.values())
        new = defaultdict(float, {"else": used.ru_utime + used.ru_stime - checks})
        for crate, kind, seconds in self.seen.values():
            new[f"{crate} {kind}"] += seconds
        return found | {it: max(new[it], found.get(it, 0)) for it in new}


def read():
    """The seconds that earlier runs left, by crate and kind."""
    try:
        return json.loads(TIMES.read_text())
    except (OSError, ValueError):
        return {}


def stat_of(pid):
    """A process's parent, when it started, and the seconds of processor that it has taken."""
    text = Path(f"/proc/{pid}/stat").read_text(errors="replace")
    words = text[text.rindex(")") + 2 :].split()
    return int(words[1]), int(words[19]), sum(int(it) for it in words[11:15]) / TICKS


def look(seen):
    """Adds to seen what the checks of the prover that this process started have taken so far,
    without those that another check started."""
    parents, checks = {}, {}
    for pid in map(int, filter(str.isdigit, os.listdir("/proc"))):
        try:
            words = Path(f"/proc/{pid}/cmdline").read_text(errors="replace").split("\0")
            parents[pid], start, seconds = stat_of(pid)
            if words[0].endswith("/rattle") and "--crate-name" in words:
                checks[pid] = words, start, seconds
        except (OSError, ValueError, IndexError):
            pass
    for pid, (words, start, seconds) in checks.items():
        above = list(above_of(pid, parents))
        if os.getpid() in above and not checks.keys() & {*above}:
            kind = "edits" if "--only" in words else "proofs"
            seen[pid, start] = words[words.index("--crate-name") + 1], kind, seconds


def above_of(pid, parents):
    """The processes that led to this one."""
    while pid := parents.get(pid):
        yield pid
