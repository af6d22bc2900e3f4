#!/usr/bin/env python3
"""What the gate costs: bench/gate.py [--kept] [--write] [CRATE ..]; on two processors: taskset -c 0,1 bench/gate.py ..

Clones the last commit into a temporary folder and runs `rt ci` there, from nothing: with `--anew`, if this kit's `rt ci` keeps what earlier
runs passed. Where it takes names, only these crates and those below them are run if any are named.
Prints, for each crate, the processor minutes of its proof, of its tests' proof, of what its edits begin with, and of its edits, and the
commit at which they were taken; then the whole, and how busy the machine was with other work. With --write the figures go into
bench/gate.md too.

With --kept the run takes what earlier runs on this machine passed. What it does not prove again keeps the figures that bench/gate.md has,
with their commit. So a table can be made in parts, as the crates change.

How the figures are made: four times a second it reads from /proc the processor time of each process below `rt`, and adds it to what
the words and the folder of the `rattle` process above it tell: which crate, and which of the four. So of each process the last
quarter of a second can be missing. The whole is the kernel's own sum over all processes that have ended, and is exact; `rest` is what
no crate was seen to take: `rt` itself, compilers and links, tests and programs that run.
"""

import argparse
import os
import re
import subprocess
import sys
import tempfile
import threading
import time

HERE = os.path.dirname(os.path.abspath(__file__))
TOP = os.path.join(HERE, "..")
PAGE = os.path.join(HERE, "gate.md")
BEGIN, END = "<!-- figures: bench/gate.py --write -->\n", "<!-- end of figures -->\n"
TICKS = os.sysconf("SC_CLK_TCK")
KINDS = ("proof", "tests", "start", "edits")
PAUSE = 0.25


def stat_of(pid):
    """Of a process: the one above it, when it began, its own seconds, and those of its children that have ended."""
    with open("/proc/%d/stat" % pid, encoding="utf-8", errors="replace") as file:
        said = file.read()
    words = said[said.rindex(")") + 2:].split()
    return int(words[1]), words[19], (int(words[11]) + int(words[12])) / TICKS, (int(words[13]) + int(words[14])) / TICKS


def work_of(pid):
    """The crate and the kind of work of a process of rattle, or None."""
    with open("/proc/%d/cmdline" % pid, "rb") as file:
        words = file.read().decode(errors="replace").split("\0")
    folder = os.readlink("/proc/%d/cwd" % pid)
    if not words[0].endswith("/rattle") or "--crate-name" not in words:
        return None
    crate = words[words.index("--crate-name") + 1]
    if "/rt-edit-" in folder:
        over = words[words.index("--incremental") + 1] if "--incremental" in words else ""
        return crate, "start" if over.endswith("/seed") else "edits"
    return crate, "tests" if "--test" in words else "proof"


class Watch(threading.Thread):
    """Adds up what the processes below one take."""

    def __init__(self, root):
        super().__init__(daemon=True)
        self.root, self.ended, self.works, self.most = root, threading.Event(), {}, {}

    def look(self):
        above, began, seconds = {}, {}, {}
        for name in os.listdir("/proc"):
            if name.isdigit():
                try:
                    above[int(name)], began[int(name)], own, waited = stat_of(int(name))
                    seconds[int(name)] = own + waited
                except OSError:
                    pass
        sums = {}
        for pid in seconds:
            chain, at = [], pid
            while at in above and at != self.root:
                chain.append(at)
                at = above[at]
            if at != self.root:
                continue
            # (the uppermost process of rattle tells what those below it do)
            for at in reversed(chain):
                one = at, began[at]
                if self.works.get(one) is None:
                    try:
                        self.works[one] = work_of(at)
                    except (OSError, IndexError, ValueError):
                        pass
                if self.works.get(one):
                    key = one, self.works[one]
                    sums[key] = sums.get(key, 0) + seconds[pid]
                    break
        for key, taken in sums.items():
            self.most[key] = max(self.most.get(key, 0), taken)

    def run(self):
        while not self.ended.wait(PAUSE):
            self.look()

    def figures(self):
        """Seconds by crate and kind."""
        found = {}
        for (_, (crate, kind)), taken in self.most.items():
            row = found.setdefault(crate, dict.fromkeys(KINDS, 0))
            row[kind] += taken
        return found


def busy():
    """The seconds for which all processors of the machine have worked."""
    with open("/proc/stat", encoding="utf-8") as file:
        words = [int(word) for word in file.readline().split()[1:9]]
    return (sum(words) - words[3] - words[4]) / TICKS


def edits_in(crate):
    folder = os.path.join(TOP, "crates", crate, "must-fail")
    return len([name for name in os.listdir(folder) if name.endswith(".edit")]) if os.path.isdir(folder) else 0


def figures_before():
    """The figures of the page: seconds by crate and kind, and the commit at which they were taken."""
    with open(PAGE, encoding="utf-8") as file:
        page = file.read()
    found = {}
    for line in page[page.index(BEGIN):page.index(END)].splitlines():
        cells = [cell.strip() for cell in line.strip("|").split("|")]
        name = re.match(r"`(\w+)`", cells[0])
        if name and os.path.isdir(os.path.join(TOP, "crates", name[1])):
            row = {kind: 60 * float(cell or 0) for kind, cell in zip(KINDS, cells[1:])}
            found[name[1]] = row, cells[7] if len(cells) > 7 else ""
    return found


def joined(new, old, commit):
    """What the run took, with what the page has of that which it took from earlier runs."""
    rows = {}
    for crate in {**old, **new}:
        kept, at = old.get(crate, (dict.fromkeys(KINDS, 0), ""))
        took = {kind: new.get(crate, {}).get(kind, 0) for kind in KINDS}
        if not edits_in(crate):
            kept = {**kept, "start": 0, "edits": 0}
        rows[crate] = {kind: took[kind] or kept[kind] for kind in KINDS}, commit if any(took.values()) else at
    return rows


def table(rows, whole):
    """The figures as lines of a table: of each crate its row and commit. The whole is the kernel's, where all were taken in one run."""
    minutes = lambda seconds: "%.1f" % (seconds / 60) if seconds else ""
    lines = ["| crate | proof | tests | start of edits | edits | number of edits | sum | commit |", "|---|---|---|---|---|---|---|---|"]
    total = dict.fromkeys(KINDS, 0)
    for crate, (row, commit) in sorted(rows.items(), key=lambda it: -sum(it[1][0].values())):
        lines.append("| `%s` | %s | %s | %s | %s |" % (crate, " | ".join(minutes(row[kind]) for kind in KINDS), edits_in(crate) or "", minutes(sum(row.values())), commit))
        for kind in KINDS:
            total[kind] += row[kind]
    if whole:
        lines.append("| rest | | | | | | %s | |" % minutes(max(whole - sum(total.values()), 0)))
    lines.append("| whole | %s | %d | %s | |" % (" | ".join(minutes(total[kind]) for kind in KINDS), sum(map(edits_in, rows)), minutes(whole or sum(total.values()))))
    return lines


def longest_chain(rows):
    """The crates whose proofs wait for one another and take longest together, lowest first, with their seconds."""
    below = {}
    with open(os.path.join(TOP, "crates.txt"), encoding="utf-8") as file:
        for line in file:
            name, colon, libraries = line.partition("#")[0].partition(":")
            if colon:
                below[name.split()[0]] = libraries.split()
    chains = {}

    def chain_to(crate):
        if crate not in chains:
            longest = max((chain_to(it) for it in below[crate] if it in below), default=(0, []), key=lambda it: it[0])
            own = rows[crate][0]["proof"] if crate in rows else 0
            chains[crate] = longest[0] + own, longest[1] + [crate]
        return chains[crate]

    return max(map(chain_to, below), key=lambda it: it[0])


def gate(names, is_kept):
    """The words of the gate from nothing, by what this kit's `rt` says of itself."""
    helped = subprocess.run(["rt", "help"], stdout=subprocess.PIPE, stderr=subprocess.STDOUT, errors="replace").stdout
    keeps = "--anew" in helped
    if names and not keeps:
        sys.exit("bench/gate.py: the `rt ci` of this kit takes no names of crates")
    return ["rt", "ci"] + ["--anew"] * (keeps and not is_kept) + names


def measured(names, room, is_kept):
    """Runs the gate in a clone: the status, the last line, and the text of the figures."""
    clone = os.path.join(room, "repo")
    subprocess.run(["git", "clone", "-q", TOP, clone], check=True)
    commit = subprocess.run(["git", "-C", clone, "log", "-1", "--format=%h"], check=True, stdout=subprocess.PIPE).stdout.decode().strip()
    start, before = time.monotonic(), busy()
    last = ""
    words = gate(names, is_kept)
    with subprocess.Popen(words, cwd=clone, stdout=subprocess.PIPE, stderr=subprocess.STDOUT, errors="replace") as ran:
        watch = Watch(ran.pid)
        watch.start()
        for line in ran.stdout:
            if line.startswith("rt: "):
                print(line, end="", flush=True)
            last = line.strip() or last
        _, status, used = os.wait4(ran.pid, 0)
        ran.returncode = os.WEXITSTATUS(status) if os.WIFEXITED(status) else 1
    watch.ended.set()
    watch.join()
    seconds, whole = time.monotonic() - start, used.ru_utime + used.ru_stime
    others = max(busy() - before - whole, 0)
    text = ["Commit %s, `%s`: %s." % (commit, " ".join(words), last), ""]
    text += ["%.0f processor seconds in all, %.0f minutes by the clock on %d processors. Other work kept %.1f of the processors busy meanwhile, so that %s." % (
        whole, seconds / 60, len(os.sched_getaffinity(0)), others / seconds, "the figures are those of a quiet machine" if others < seconds / 10 else "they are higher than on a quiet machine"), ""]
    if is_kept:
        text += ["What this run took from earlier ones has the figures, and the commit, of the run that proved it.", ""]
    rows = joined(watch.figures(), figures_before() if is_kept else {}, commit)
    seconds, chain = longest_chain(rows)
    text += ["The longest chain of proofs that wait for one another: %s. Together %.1f processor minutes, so no run from nothing that proves each by one job ends before." % (
        ", ".join("`%s`" % crate for crate in chain), seconds / 60), ""]
    text += ["Processor minutes:", ""] + table(rows, 0 if is_kept or names else whole)
    return ran.returncode, "\n".join(text) + "\n"


def write(text):
    """Puts the figures into the page."""
    with open(PAGE, encoding="utf-8") as file:
        page = file.read()
    front, back = page.index(BEGIN) + len(BEGIN), page.index(END)
    with open(PAGE, "w", encoding="utf-8") as file:
        file.write(page[:front] + "\n" + text + "\n" + page[back:])


def main():
    parser = argparse.ArgumentParser(description=__doc__, formatter_class=argparse.RawDescriptionHelpFormatter)
    parser.add_argument("--kept", action="store_true", help="take what earlier runs on this machine passed")
    parser.add_argument("--write", action="store_true", help="put the figures into bench/gate.md")
    parser.add_argument("crates", nargs="*", metavar="CRATE")
    asked = parser.parse_args()
    with tempfile.TemporaryDirectory(prefix="gate-") as room:
        status, text = measured(asked.crates, room, asked.kept)
    print(text)
    if asked.write:
        write(text)
    return status


sys.exit(main())
