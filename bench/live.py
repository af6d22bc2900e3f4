#!/usr/bin/env python3
"""How fast `legosdn run` answers real connections, beside a floor and two other controllers: bench/live.py [PROGRAM [SECONDS]]

The switches are played over the loopback address by bench/live_client.c, which is built here. Each PACKET_IN has a source address that
is new, and is answered by an addition of an entry. The application is sdk/python/examples/learning_by_additions.py; the rows with C have
bench/live_app.c in its place, and so show what the controller itself takes. The floor is bench/live_floor.c: it makes the same exchanges
with the same application, and checks nothing. Behind each shape stand the ratios to it, in the same run. The others are os-ken
(python3-os-ken) with bench/osken_learning.py, and ovs-testcontroller (openvswitch-testcontroller), where they are installed. Neither of
them awaits a barrier: `legosdn run` tells its application that an entry stands only when the switch has answered one. ovs-testcontroller
closes connections where many come at once, so it has 8 at most. Each measurement takes SECONDS, by default 3, and is made three times in
turn with the others; the best one is printed.

Prints: additions a second, in the first and in the last quarter too, the time from a PACKET_IN to its FLOW_MOD, and what the controller
and its application took of a processor for each addition, which depends least on what else the machine does; with one switch and one
PACKET_IN in flight (paced: it waits for the barrier of the one before), with one switch and 32, with 16 switches and 8 each, and with one
switch that has 20,000 entries; then how 64 switches join, and how a flood of 50,000 PACKET_INs from one switch is taken while another one
is served, with the peak of the controller's memory. Ends with status 1 where a measurement failed.

`bench/live.py --processes [PROGRAM [SECONDS]]` prints in place of that what 1, 2 and 4 processes of the controller answer side by side,
each with 16 switches of its own, and 8 PACKET_INs of each in flight.
"""

import argparse
import concurrent.futures
import contextlib
import json
import os
import shutil
import socket
import subprocess
import sys
import tempfile
import time

HERE = os.path.dirname(os.path.abspath(__file__))
TOP = os.path.dirname(HERE)
PROGRAM = os.path.join(TOP, "crates", "legosdn", "out", "legosdn")
SECONDS = 3
APPLICATION = os.path.join(TOP, "sdk", "python", "examples", "learning_by_additions.py")
RUN, RUN_C, FLOOR, FLOOR_C = "legosdn run", "legosdn run, C", "floor", "floor, C"
# Switches, PACKET_INs in flight, whether each waits for the barrier of the one before, and how many entries each switch has before.
SHAPES = ((1, 1, True, 0), (1, 1, False, 0), (1, 32, False, 0), (16, 8, False, 0), (1, 1, True, 20_000))
PROCESSES = (1, 2, 4)
TIMES = 3
MOST_OF_OVS = 8
FLOOD = 50_000
FLOOD_SECONDS = 120


def free_port():
    with socket.create_server(("127.0.0.1", 0)) as link:
        return link.getsockname()[1]


def compile_here(name):
    """Builds a program of this folder."""
    subprocess.run(["cc", "-O2", "-o", os.path.join(ROOM, name), os.path.join(HERE, f"{name}.c")], check=True)


def commands(port, room):
    """The name, the command and the standard input of each controller that is here."""
    python, c = ["/usr/bin/python3", APPLICATION], [os.path.join(ROOM, "live_app")]
    if os.access(PROGRAM, os.X_OK):
        for name, command in ((RUN, python), (RUN_C, c)):
            yield name, [PROGRAM, "run", str(port), "1000000000"], f'[[app]]\nname = "app"\ncommand = {json.dumps(command)}\n'
    for name, command in ((FLOOR, python), (FLOOR_C, c)):
        yield name, [os.path.join(ROOM, "live_floor"), str(port), *command], ""
    if shutil.which("osken-manager"):
        words = ["--ofp-listen-host", "127.0.0.1", "--ofp-tcp-listen-port", str(port), os.path.join(HERE, "osken_learning.py")]
        yield "os-ken", ["osken-manager", *words], ""
    if shutil.which("ovs-testcontroller"):
        yield "ovs-testcontroller", ["ovs-testcontroller", f"ptcp:{port}:127.0.0.1", f"--unixctl={room}/ctl"], ""


@contextlib.contextmanager
def running(command, given, room):
    """Runs a controller, and ends it."""
    with open(os.path.join(room, "said"), "wb") as said:
        process = subprocess.Popen(command, stdin=subprocess.PIPE, stdout=said, stderr=said)
    try:
        process.stdin.write(given.encode())
        process.stdin.close()
        yield process
    finally:
        process.kill()
        process.wait()


def listens(process, port):
    """Waits until something listens at the port, without connecting to it."""
    wanted = f"0100007F:{port:04X}"
    for _ in range(600):
        with open("/proc/net/tcp", encoding="ascii") as file:
            if any(it.split()[1] == wanted and it.split()[3] == "0A" for it in file.readlines()[1:]):
                return True
        if process.poll() is not None:
            return False
        time.sleep(0.05)
    return False


def peak(process):
    """The peak of the memory of a running process, in MiB."""
    with open(f"/proc/{process.pid}/status", encoding="ascii") as file:
        return next(int(it.split()[1]) / 1024 for it in file if it.startswith("VmHWM"))


def processor(process):
    """What a controller and its child have taken of a processor, in seconds."""
    with open(f"/proc/{process.pid}/task/{process.pid}/children", encoding="ascii") as file:
        pids = [process.pid, *file.read().split()]
    seconds = 0.0
    for pid in pids:
        with open(f"/proc/{pid}/stat", encoding="ascii") as file:
            seconds += sum(map(int, file.read().rsplit(")", 1)[1].split()[11:13])) / os.sysconf("SC_CLK_TCK")
    return seconds


def measure(name, words):
    """Runs a controller and the client with these words; gives what it measured, and the peak of memory."""
    port = free_port()
    with tempfile.TemporaryDirectory(prefix="live_bench.") as room:
        command, given = next((it[1:] for it in commands(port, room) if it[0] == name))
        with running(command, given, room) as process:
            if not listens(process, port):
                with open(os.path.join(room, "said"), encoding="utf-8", errors="replace") as file:
                    raise OSError(f"{name} does not listen: {file.read()[-300:]}")
            time.sleep(1)
            before = processor(process)
            words = [os.path.join(ROOM, "live_client"), words[0], str(port), *map(str, words[1:])]
            with subprocess.Popen(words, stdin=subprocess.PIPE, stdout=subprocess.PIPE, text=True) as player:
                line = player.stdout.readline().strip()
                if "=" not in line or process.poll() is not None:
                    with open(os.path.join(room, "said"), encoding="utf-8", errors="replace") as file:
                        raise OSError(f"{line}; {name} said: {file.read()[-300:]}")
                got = dict(it.split("=") for it in line.split())
                found = {it: float(value) for it, value in got.items()}
                return {**found, "processor": processor(process) - before}, peak(process)


def rate(name, switches, in_flight, paced, before):
    # ovs-testcontroller passes over all frames but those that met no entry.
    reason = 0 if name == "ovs-testcontroller" else 1
    return measure(name, ("rate", switches, in_flight, reason, int(paced), SECONDS, before))


def row(name, count, in_flight, paced, before, got, mebibytes):
    """Prints a measurement; gives how many additions it had a second."""
    each = got["processor"] * 1e6 / max(1, got["rate"] * SECONDS)
    figures = " ".join(f"{it:8.0f}" for it in (*(got[it] for it in ("rate", "first", "last", "p50", "p99")), each))
    print(f"{name:20} {count:8} {in_flight:>3}{' paced' if paced else '':6} {before or '':>6} {figures} {mebibytes:6.1f}", flush=True)
    return got["rate"]


def best_of(players, shape):
    """The best measurement of each of these, by turns, and how many failed."""
    switches, *rest = shape
    failed, found = 0, {}
    for name in players * TIMES:
        count = min(switches, MOST_OF_OVS) if name == "ovs-testcontroller" else switches
        try:
            got = rate(name, count, *rest)
        except OSError as fault:
            failed += 1
            print(f"{name}: {fault}")
            continue
        if name not in found or got[0]["rate"] > found[name][1]["rate"]:
            found[name] = (count, *got)
    return found, failed


def rates(names):
    """Measures each shape; gives how many measurements failed."""
    failed = 0
    heads = " ".join(f"{it:>8}" for it in ("added/s", "first", "last", "p50 us", "p99 us", "cpu us"))
    print(f"{'':20} {'switches':>8} {'in flight':>9} {'before':>6} {heads} {'MiB':>6}")
    for shape in SHAPES:
        _, in_flight, paced, before = shape
        # The others send no barriers, and have no large tables.
        found, wrong = best_of([it for it in names if it in (RUN, RUN_C, FLOOR, FLOOR_C) or not (paced or before)], shape)
        failed += wrong
        added = {name: row(name, it[0], in_flight, paced, before, *it[1:]) for name, it in found.items()}
        for name, floor in ((RUN, FLOOR), (RUN_C, FLOOR_C)):
            if name in added and floor in added:
                print(f"    {name}: {added[name] / added[floor]:.2f} of the {floor}", flush=True)
    return failed


def side_by_side():
    """Measures processes side by side; gives how many measurements failed."""
    failed = 0
    for name in (RUN, RUN_C):
        for count in PROCESSES:
            with concurrent.futures.ThreadPoolExecutor(count) as pool:
                best = 0
                for _ in range(TIMES):
                    try:
                        best = max(best, sum(it[0]["rate"] for it in pool.map(lambda _: rate(name, 16, 8, False, 0), range(count))))
                    except OSError as fault:
                        failed += 1
                        print(f"{name}: {fault}")
                print(f"{name:20} {count} processes, 16 switches each: {best:8.0f} additions a second", flush=True)
    return failed


def joins_and_floods():
    """Measures joins and a flood; gives how many measurements failed."""
    failed = 0
    for name in (RUN, RUN_C):
        got, mebibytes = measure(name, ("joins", 64, 2, 30))
        print(f"{name}: {got['joined']:.0f} of 64 switches joined and had their two entries within {got['milliseconds']:.0f} ms, {mebibytes:.1f} MiB")
        failed += got["joined"] < 64
        got, mebibytes = measure(name, ("flood", FLOOD, FLOOD_SECONDS))
        print(f"{name}: a flood of {FLOOD:,} PACKET_INs was taken by the socket within {got['taken']:.1f} s, and {got['added']:.0f} were answered "
              f"within {got['done']:.1f} s; the other switch had {got['served']:.0f} answers meanwhile, with {got['longest']:.0f} ms as the longest "
              f"wait; peak {mebibytes:.1f} MiB")
        failed += got["added"] < FLOOD
    return failed


def main():
    global PROGRAM, SECONDS, ROOM
    parser = argparse.ArgumentParser(description=__doc__.split("\n")[0])
    parser.add_argument("program", nargs="?", default=PROGRAM, help="the built controller")
    parser.add_argument("seconds", nargs="?", type=float, default=SECONDS, help="how long a measurement takes")
    parser.add_argument("--processes", action="store_true", help="processes side by side alone")
    given = parser.parse_args()
    PROGRAM, SECONDS = given.program, given.seconds
    with tempfile.TemporaryDirectory(prefix="live_bench.") as ROOM:
        for name in ("live_client", "live_app", "live_floor"):
            compile_here(name)
        names = [it[0] for it in commands(0, ROOM)]
        print(f"{os.cpu_count()} processors, load {os.getloadavg()[0]:.1f}; {'; '.join(names)}")
        if RUN not in names:
            print(f"there is no program {PROGRAM}")
            return 1
        failed = side_by_side() if given.processes else rates(names) + joins_and_floods()
    return 1 if failed else 0


if __name__ == "__main__":
    sys.exit(main())
