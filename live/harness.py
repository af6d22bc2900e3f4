"""What the cases of live/check have in common: the program running over a policy, and what they compare."""

import json
import os
import re
import socket
import subprocess
import sys
import time
from collections.abc import Callable
from typing import NamedTuple

HERE = os.path.dirname(os.path.abspath(__file__))
sys.path.insert(0, HERE)
from played import SECONDS, Match, Switch

# A run ends when it was quiet for so many tenths of a second in all.
ROUNDS = 100
MOST_OF_A_VALUE = 400
BROADCAST = (10, Match(dl_dst="ff:ff:ff:ff:ff:ff"))


def entry(last):
    """The key of the entry for the address with this last byte."""
    return (20, Match(dl_dst=f"02:00:00:00:00:{last:02x}"))


def frame(last):
    return bytes.fromhex("020000000099" + f"0200000000{last:02x}" + "88b5")


def python(name, *words):
    """The command of an application of this folder."""
    return [sys.executable, os.path.join(HERE, name), *words]


def application(name, command, words=""):
    """The table of an application in a policy."""
    return f'[[app]]\nname = "{name}"\n{words}command = {json.dumps(command)}\n'


def misbehaving(words="", name="app"):
    """The table of misbehaving.py, which keeps its process number where the run looks for it."""
    return application(name, python("misbehaving.py", "PID_FILE"), words)


class Case(NamedTuple):
    """A case: what it does with a run, over which policy, what it sets for the program besides, and by which command it is started."""

    play: Callable[..., None]
    policy: str = misbehaving()
    rounds: int = ROUNDS
    variables: dict[str, str] = {}
    word: str = "run"


def free_ports(count):
    """Ports that nobody listens at, below those that connections take for their own end (from 32,768 on)."""
    found = []
    for port in range(16384 + os.getpid() % 8192, 32768):
        with socket.socket() as it:
            it.setsockopt(socket.SOL_SOCKET, socket.SO_REUSEADDR, 1)
            try:
                it.bind(("127.0.0.1", port))
                found.append(port)
            except OSError:
                continue
        if len(found) == count:
            return found
    raise OSError("there are not enough free ports")


def same(got, due, what):
    if got == due:
        return
    if isinstance(got, dict) and isinstance(due, dict):
        # Of tables what differs is enough, each entry by its match and its cookie.
        got, due = ({f"{match} cookie={cookie}" for (_, match), (_, cookie) in it.items()} for it in (got, due))
        got, due = sorted(got - due), sorted(due - got)
    raise AssertionError(f"{what}: {shortened(got)}, and not {shortened(due)}")


def shortened(value):
    text = repr(value)
    return text if len(text) <= MOST_OF_A_VALUE else f"{text[:MOST_OF_A_VALUE]}.."


def within(got, most, what):
    if not got <= most:
        raise AssertionError(f"{what}: {got:.1f}, and at most {most} is due")


def until(holds, what, seconds=SECONDS):
    """Waits until something holds; gives what it gave."""
    end = time.monotonic() + seconds
    while True:
        got = holds()
        if got:
            return got
        if time.monotonic() > end:
            raise AssertionError(f"{what} did not come within {seconds} s")
        time.sleep(0.01)


class Run:
    """The program, running. What it writes stands in files, so that it never waits for a reader."""

    def __init__(self, program, port, room, case):
        self.port, self.room = port, room
        policy = self.path("policy.toml")
        with open(policy, "w", encoding="ascii") as file:
            file.write(case.policy.replace("PID_FILE", self.path("pid")).replace("ROOM", room))
        with open(policy, "rb") as source, open(self.path("report"), "wb") as report, open(self.path("errors"), "wb") as errors:
            words, variables = [program, case.word, str(port), str(case.rounds)], {**os.environ, **case.variables}
            self.began = time.monotonic()
            self.process = subprocess.Popen(words, stdin=source, stdout=report, stderr=errors, env=variables)

    def path(self, name):
        return os.path.join(self.room, name)

    def written(self, name):
        """The whole lines of a file so far."""
        with open(self.path(name), encoding="utf-8", errors="replace") as file:
            return file.read().split("\n")[:-1]

    def lines(self):
        """The report so far."""
        return self.written("report")

    def awaits(self, line, times=1, seconds=SECONDS):
        """Waits until this line stands in the report so many times."""

        def stands():
            if self.process.poll() is not None and self.lines().count(line) < times:
                raise AssertionError(f"the run ended with status {self.process.returncode} before {line!r}: {self.lines()[-2:]}")
            return self.lines().count(line) >= times

        until(stands, f"the line {line!r} ({times} times)", seconds)

    def switch(self, dpid, kind=Switch, **how):
        switch = kind(self.port, dpid, **how)
        if "cut_at" not in how:
            switch.wait(lambda s: s.barriers > 1 and BROADCAST in s.table, "the first entry")
        return switch

    def pid(self):
        with open(self.path("pid"), encoding="ascii") as file:
            return int(file.read())

    def peak(self):
        """The peak of the program's memory, in MiB."""
        with open(f"/proc/{self.process.pid}/status", encoding="ascii") as file:
            return next(int(line.split()[1]) / 1024 for line in file if line.startswith("VmHWM"))

    def end(self, seconds=2 * SECONDS):
        """Waits for the end: the report, without the ages of entries and the last moment."""
        ended = self.process.wait(seconds)
        same(ended, 0, "the status")
        same([line for line in self.written("errors") if line.startswith("thread") or "panic" in line], [], "what went wrong")
        steady = re.sub(r" age=\d+", "", re.sub(r"^end \d+ ", "end ", "\n".join(self.lines()), flags=re.M)).splitlines()
        # On a busy machine an application may need more than the 5 seconds that a start has.
        return [line for line in steady if line != "start app silent"]
