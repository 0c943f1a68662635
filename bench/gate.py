#!/usr/bin/env python3
"""What the gate costs: runs it from nothing, and prints the processor seconds of each crate.

  bench/gate.py                 clones the last commit, runs `rt ci` there, and removes the clone
  bench/gate.py NAME..          the same with these crates and those below them alone
  --kept                        takes what this machine keeps of crates that were proved before, and measures the others
  --log FILE                    what `rt ci` says (otherwise a file among the temporary ones, which is named)
  --edits                       also each edit, the dearest first

A row is a crate: its proof, what two compilers take to make a program of it with all crates below, its tests (which
prove the crate once more, with the tests), and its edits that must fail (with the two checks of the whole crate that
they begin and end with). Then comes their sum, and the minute of the run at which the last of them ended. Other work is
what is run, linked and laid out, and what ended between two looks. The status is that of `rt ci`.
"""
import os
import resource
import shutil
import signal
import subprocess
import sys
import tempfile
import time

PAUSE = 0.25
KINDS = ("proof", "builds", "tests", "edits")
TICKS = os.sysconf("SC_CLK_TCK")


def processes():
    """Yields each process: its number and start, its parent, and the seconds that it took itself."""
    for name in os.listdir("/proc"):
        if not name.isdigit():
            continue
        try:
            with open(f"/proc/{name}/stat", encoding="utf-8", errors="replace") as it:
                fields = it.read().rpartition(")")[2].split()
        except OSError:
            continue
        yield (int(name), fields[19]), int(fields[1]), (int(fields[11]) + int(fields[12])) / TICKS


def kind_of(number):
    """Returns the crate, the kind of work and which of its edits a process of rattle is for, or None."""
    try:
        with open(f"/proc/{number}/cmdline", encoding="utf-8", errors="replace") as it:
            words = it.read().split("\0")
        folder = os.readlink(f"/proc/{number}/cwd")
    except OSError:
        return None
    if os.path.basename(words[0]) != "rattle" or "--crate-name" not in words:
        return None
    crate = words[words.index("--crate-name") + 1]
    if os.path.basename(folder).startswith("rt-edit"):
        # Each is tried over a copy of its own of what the first check kept, in a folder named by the edit's number.
        kept = words[words.index("--incremental") + 1] if "--incremental" in words else ""
        edit = os.path.basename(kept)
        return crate, "edits", int(edit) if edit.isdigit() else None
    # A program is compiled from what its check proved.
    kind = "tests" if "--test" in words else "builds" if "--crate-checked" in words else "proof"
    return crate, kind, None


class Gate:
    """The processes that a run of rt started, and the seconds that each had taken when it was last seen.

    Not all of them are waited for, so the sum that the kernel keeps of ended children lacks some."""

    def __init__(self, rt):
        self.rt, self.kinds, self.taken = rt, {}, {}
        self.began, self.ended = time.monotonic(), {}

    def look(self):
        children = {}
        for key, parent, seconds in processes():
            children.setdefault(parent, []).append((key, seconds))
        for key, seconds in children.get(self.rt, ()):
            # It may be about to become rattle, so it is asked until it is.
            kind = self.kinds.get(key) or kind_of(key[0])
            self.note(children, key, seconds, kind)

    def note(self, children, key, seconds, kind):
        kind = self.kinds.get(key) or kind
        self.taken[key] = seconds
        if kind:
            self.kinds[key] = kind
            self.ended[kind[0]] = time.monotonic() - self.began
        for child, its_seconds in children.get(key[0], ()):
            self.note(children, child, its_seconds, kind)

    def rows(self):
        rows = {}
        for key, seconds in self.taken.items():
            crate, kind, _edit = self.kinds.get(key, (None, None, None))
            if crate:
                rows.setdefault(crate, dict.fromkeys(KINDS, 0))[kind] += seconds
        return rows

    def edits(self, top):
        """Returns the lines of the edits, the dearest first. They are numbered in the order of their names."""
        of_edit = {}
        for key, seconds in self.taken.items():
            crate, _kind, edit = self.kinds.get(key, (None, None, None))
            if edit is not None:
                of_edit[crate, edit] = of_edit.get((crate, edit), 0) + seconds
        lines = []
        for (crate, edit), seconds in sorted(of_edit.items(), key=lambda it: -it[1]):
            names = sorted(it for it in os.listdir(f"{top}/crates/{crate}/must-fail") if it.endswith(".edit"))
            lines.append(f"{seconds:8.0f}  {crate}/{names[edit] if edit < len(names) else edit}")
        return lines


def table(gate, whole, elapsed):
    """Returns the table's lines: the crates by their sums, and the sums of all."""
    rows = gate.rows()
    line = "{:<18}" + "{:>9}" * (len(KINDS) + 2)
    lines = [line.format("crate", *KINDS, "sum", "minute")]
    of_kind = dict.fromkeys(KINDS, 0)
    for crate, row in sorted(rows.items(), key=lambda it: -sum(it[1].values())):
        minute = f"{gate.ended[crate] / 60:.0f}"
        lines.append(line.format(crate, *(round(row[it]) for it in KINDS), round(sum(row.values())), minute))
        for kind in KINDS:
            of_kind[kind] += row[kind]
    counted = sum(of_kind.values())
    whole = max(whole, counted)
    lines.append(line.format("all crates", *(round(of_kind[it]) for it in KINDS), round(counted), ""))
    lines.append(f"other work: {whole - counted:.0f} s; all: {whole:.0f} s = {whole / 60:.1f} processor minutes")
    lines.append(f"from start to end: {elapsed / 60:.1f} minutes on {len(os.sched_getaffinity(0))} processors")
    return lines


def anew():
    """The word by which a kit that keeps what its gate proved proves it again."""
    told = subprocess.run(["rt", "help"], stdin=subprocess.DEVNULL, capture_output=True, text=True, check=False)
    return ["--anew"] if "--anew" in told.stdout + told.stderr else []


def keep_below(folder, names):
    """Leaves in a clone's list of crates these and those below them."""
    with open(f"{folder}/crates.txt", encoding="utf-8") as it:
        lines = it.readlines()
    uses = {it.partition(":")[0]: it.partition(":")[2].split() for it in lines if not it.startswith("#")}
    found, left = set(), [*names]
    while left:
        name = left.pop()
        if name in uses and name not in found:
            found.add(name)
            left += uses[name]
    with open(f"{folder}/crates.txt", "w", encoding="utf-8") as it:
        it.writelines(line for line in lines if line.partition(":")[0] in found)
    for crate in {*os.listdir(f"{folder}/crates")} - found:
        shutil.rmtree(f"{folder}/crates/{crate}")


def measured(folder, log, with_edits, with_kept):
    """Runs rt there, and returns its status and the lines to print."""
    began = time.monotonic()
    with open(log, "w", encoding="utf-8") as out:
        command = ["rt", "ci", *([] if with_kept else anew())]
        started = subprocess.Popen(
            command, cwd=folder, stdin=subprocess.DEVNULL, stdout=out, stderr=subprocess.STDOUT
        )
        gate = Gate(started.pid)
        try:
            while started.poll() is None:
                gate.look()
                time.sleep(PAUSE)
        except KeyboardInterrupt:
            # What was seen so far is still worth its lines.
            print("broken off")
            started.send_signal(signal.SIGINT)
            started.wait()
    usage = resource.getrusage(resource.RUSAGE_CHILDREN)
    lines = table(gate, usage.ru_utime + usage.ru_stime, time.monotonic() - began)
    return started.returncode, (gate.edits(folder) if with_edits else []) + lines


def main(words):
    top = os.path.dirname(os.path.dirname(os.path.realpath(__file__)))
    log = None
    if "--log" in words:
        at = words.index("--log")
        log = os.path.realpath(words[at + 1])
        words = words[:at] + words[at + 2 :]
    names = [it for it in words if not it.startswith("-")]
    if "-h" in words or "--help" in words or set(words) - {"--edits", "--kept", *names}:
        print(__doc__)
        return 2
    if log is None:
        log = tempfile.mkstemp(prefix="gate-", suffix=".log")[1]
    print(f"rt ci writes to {log}", flush=True)
    with tempfile.TemporaryDirectory(prefix="gate-") as room:
        clone = f"{room}/clone"
        subprocess.run(["git", "clone", "-q", "--no-hardlinks", top, clone], check=True)
        if names:
            keep_below(clone, names)
        # (the clone itself is no part of what the gate costs)
        status, lines = measured(clone, log, "--edits" in words, "--kept" in words)
    print("\n".join(lines))
    with open(log, encoding="utf-8", errors="replace") as it:
        print(it.read().rstrip().rpartition("\n")[2])
    return status


if __name__ == "__main__":
    sys.exit(main(sys.argv[1:]))
