#!/usr/bin/env python3
"""Runs .ci/run and prints as a table what each crate took: seconds of a processor for its proof, its tests and its edits, read off /proc.
scripts/put-table.py puts it into docs/GATE.md. usage: scripts/gate-times.sh [--over LOG]"""
import os
import resource
import subprocess
import sys
import time

EVERY = 0.5
TICKS = os.sysconf("SC_CLK_TCK")
KINDS = ("proof", "tests", "edits")


def read(path):
    try:
        with open(path, "rb") as it:
            return it.read().decode(errors="replace")
    except OSError:
        return ""


def processes():
    """Returns of each process its parent, the time of its start, and the seconds of a processor that it has taken."""
    found = {}
    for pid in filter(str.isdigit, os.listdir("/proc")):
        said = read(f"/proc/{pid}/stat").rpartition(")")[2].split()
        if said:
            found[int(pid)] = int(said[1]), int(said[19]), (int(said[11]) + int(said[12])) / TICKS
    return found


def task_of(pid):
    """Returns the crate and the kind of work that a process of the prover is there for. rt ci tries edits in a folder that it makes for each."""
    words = read(f"/proc/{pid}/cmdline").split("\0")
    if os.path.basename(words[0]) != "rattle" or "--crate-name" not in words:
        return None
    try:
        folder = os.path.basename(os.readlink(f"/proc/{pid}/cwd"))
    except OSError:
        return None
    kind = "edits" if folder.startswith("rt-edit") else "tests" if "--test" in words else "proof"
    return words[words.index("--crate-name") + 1], kind


class Times:
    """What the provers below a process have taken, each with all that it starts, by crate and kind of work."""

    def __init__(self, top):
        self.top, self.tasks, self.taken = top, {}, {}

    def task(self, pid, start):
        if (pid, start) not in self.tasks:
            found = task_of(pid)
            # A process that is no prover yet can become one.
            if not found:
                return None
            self.tasks[pid, start] = found
        return self.tasks[pid, start]

    def look(self):
        found = processes()
        for pid, (_, start, seconds) in found.items():
            line = [pid]
            while line[-1] in found and line[-1] != self.top:
                line.append(found[line[-1]][0])
            of = [self.task(it, found[it][1]) for it in line[:-1]] if line[-1] == self.top else []
            if any(of):
                self.taken[pid, start] = next(filter(None, of)), seconds

    def sums(self):
        found = {}
        for key, seconds in self.taken.values():
            found[key] = found.get(key, 0) + seconds
        return found


def libraries():
    """Returns of each crate of crates.txt the crates of the repository that it stands on."""
    lines = [it.partition("#")[0].strip() for it in read("crates.txt").split("\n")]
    found = {it.partition(":")[0].split()[0]: it.partition(":")[2].replace(",", " ").split() for it in lines if it}
    return {name: [it for it in uses if it in found] for name, uses in found.items()}


def longest_chain(uses, sums):
    """Returns the seconds and the crates of the longest chain: proofs of crates that stand on one another, then the last one's edits.
    Its tests wait for the same proofs as it does itself, and its edits for both."""
    of = lambda name, kind: sums.get((name, kind), 0)
    proved = {}

    def chain(name):
        if name not in proved:
            seconds, names = max(map(chain, uses[name]), default=(0, []))
            proved[name] = seconds + of(name, "proof"), [*names, name]
        return proved[name]

    ends = [(chain(it)[0] + max(of(it, "tests") - of(it, "proof"), 0) + of(it, "edits"), chain(it)[1]) for it in uses]
    return max(ends, default=(0, []))


def table(sums, all_seconds, wall):
    """Prints the crates that took a hundredth of all, the dearest first, in three columns, and what the whole and the longest chain took."""
    uses = libraries()
    of = lambda name: [sums.get((name, kind), 0) for kind in KINDS]
    cells = lambda name: f"| `{name}` | " + " | ".join(f"{it:.0f}" if it else "" for it in of(name)) + " "
    names = sorted((it for it in uses if sum(of(it)) * 100 >= sum(sums.values())), key=lambda it: -sum(of(it)))
    height = -(-len(names) // 3)
    print("| Crate | Proof | Tests | Edits " * 3 + "|\n" + "|---" * 12 + "|")
    for row in range(height):
        print("".join(map(cells, names[row::height])) + "| | | | " * (3 - len(names[row::height])) + "|")
    proof, tests, edits = [sum(it) for it in zip(*map(of, uses))]
    rest = sum(sums.values()) - sum(sum(of(it)) for it in names)
    print(f"\nThe other {len(uses) - len(names)} crates took {rest:.0f} together. All took {all_seconds:.0f} s of a processor, of which {proof:.0f} for proofs, {tests:.0f} for tests and {edits:.0f} for edits, in {wall / 60:.0f} minutes")
    print(f"on {len(os.sched_getaffinity(0))} processors.")
    seconds, names = longest_chain(uses, sums)
    print(f"The longest chain takes {seconds / 60:.0f} of these minutes: " + ", ".join(f"`{it}`" for it in names) + ".")


def main(words):
    if words and (len(words) != 2 or words[0] != "--over"):
        print(__doc__.split("\n")[1], file=sys.stderr)
        return 2
    top = os.path.join(os.path.dirname(os.path.realpath(__file__)), "..")
    log = os.path.abspath(words[1] if words else f"{top}/out/gate.log")
    os.makedirs(os.path.dirname(log), exist_ok=True)
    os.chdir(top)
    began = time.time()
    with open(log, "wb") as it:
        gate = subprocess.Popen([".ci/run"], stdin=subprocess.DEVNULL, stdout=it, stderr=subprocess.STDOUT)
    times = Times(gate.pid)
    while gate.poll() is None:
        times.look()
        time.sleep(EVERY)
    used = resource.getrusage(resource.RUSAGE_CHILDREN)
    table(times.sums(), used.ru_utime + used.ru_stime, time.time() - began)
    print(f"the gate's last line: {read(log).rstrip().rpartition(chr(10))[2]}; all of it is in {log}", file=sys.stderr)
    return gate.returncode if gate.returncode >= 0 else 128 - gate.returncode


if __name__ == "__main__":
    sys.exit(main(sys.argv[1:]))
