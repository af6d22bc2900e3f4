#!/usr/bin/env python3
"""Holds the judge against loops against all small networks: bench/guard_cases.py [PROGRAM]

The program (bench/out/guard_time, which bench/build makes) says what the judge finds first, for each choice of the tables of three
switches: all tables of at most two rows of a family of rows, and no table. Here the same is worked out apart, twice. First by packets:
each packet is walked through the network by the row that each switch takes, and where one comes back to a port it was at, or a row
changes packets on their way to a link, the tables are to be refused. Then by the definition of docs/POLICY.md, which looks at a value and
not at a packet: so what is found has to be the same, value, switch and port, also where rows have other fields. Where they have none,
both are one, and the place that is found is one that a packet comes back to.

Prints for each network and family how many choices there were and how many were refused. Ends with status 1 at the first difference,
with the tables. `--every N` asks about each Nth table of the first switch alone.
"""

import argparse
import functools
import itertools
import os
import subprocess
import sys
import tempfile

import guard_input
from guard_input import ALL, DL_DST, EDIT, FLOOD, IN_PORT, IPV4, NW_DST, Row

HERE = os.path.dirname(os.path.abspath(__file__))
PROGRAM = os.path.join(HERE, "out", "guard_time")
SWITCHES = (1, 2, 3)
ONE, OTHER, SOURCE = 0x020000000001, 0x020000000002, 0x020000000009
HALF, ONE_ADDRESS = (0x80000000, 1), (0x80000001, 32)
NETWORKS = {
    "ring": [((1, 1), (2, 2)), ((2, 1), (3, 2)), ((3, 1), (1, 2))],
    "two links": [((1, 1), (2, 1)), ((1, 2), (2, 2)), ((2, 3), (3, 1))],
    "line": [((1, 1), (2, 1)), ((2, 2), (3, 1))],
    "link to itself": [((1, 1), (1, 2)), ((2, 1), (3, 1))],
}
WAYS = ((1,), (2,), (IN_PORT,), (FLOOD,))


def family(matches, priorities, ways):
    """All tables of at most two rows with different keys, and no table."""
    keys = [{**match, "priority": priority} for match in matches for priority in priorities]
    rows = [[Row(ports=way, **key) for way in ways] for key in keys]
    pairs = [pair for one, other in itertools.combinations(rows, 2) for pair in itertools.product(one, other)]
    return [None, (), *((row,) for it in rows for row in it), *pairs]


VALUES = [{}, {"dl_dst": ONE}, {"dl_dst": OTHER}]
FAMILIES = {
    "two values": (DL_DST, family(VALUES, (1, 2), WAYS)),
    "ports": (DL_DST, family([{**it, **at} for it in VALUES[:2] for at in ({}, {"in_port": 1}, {"in_port": 2})], (1,), WAYS)),
    "another field": (DL_DST, family([{**it, **at} for it in VALUES[:2] for at in ({}, {"dl_src": SOURCE})], (1, 2), WAYS[:2] + WAYS[3:])),
    "actions": (DL_DST, family(VALUES[:2], (1,), [(), (1, 2), (IN_PORT, 2), (ALL,), (EDIT, 1), (EDIT,), (EDIT, 7)])),
    "prefixes": (NW_DST, family([{}, {"dl_type": IPV4}, {"dl_type": 0x806}, {"dl_type": IPV4, "nw_dst": HALF}, {"nw_dst": ONE_ADDRESS}], (1,), WAYS)),
}


class Packet:
    """A packet, as far as rows look at it."""

    def __init__(self, dl_dst=ONE, dl_src=SOURCE, dl_type=IPV4, nw_dst=0):
        self.dl_dst, self.dl_src, self.dl_type, self.nw_dst = dl_dst, dl_src, dl_type, nw_dst

    def hits(self, row, port):
        length = row.nw_dst[1] if row.nw_dst else 0
        return (
            row.in_port in (None, port)
            and row.dl_dst in (None, self.dl_dst)
            and row.dl_src in (None, self.dl_src)
            and row.dl_type in (None, self.dl_type)
            and (length == 0 or self.nw_dst >> 32 - length == row.nw_dst[0] >> 32 - length)
        )


# Of each kind of packet that rows tell apart, one; by the value that the definition has for it.
PACKETS = {
    DL_DST: [(value, Packet(dl_dst=value or 5, dl_src=source)) for value in (ONE, OTHER, None) for source in (SOURCE, 5)],
    NW_DST: [(value, Packet(nw_dst=value)) for value in (0, 0x80000000, 0x80000001, 0x80000002)],
}


def named(field, row):
    """The values that a row names."""
    if field == DL_DST:
        return {row.dl_dst} - {None}
    if row.nw_dst is None:
        return set()
    end = row.nw_dst[0] + (1 << 32 - row.nw_dst[1])
    return {row.nw_dst[0]} | ({end} if end < 1 << 32 else set())


def may_take(field, value, port, row):
    if row.in_port not in (None, port):
        return False
    if field == DL_DST:
        return row.dl_dst is None or row.dl_dst == value
    return Packet(nw_dst=value).hits(row._replace(dl_dst=None, dl_src=None), port)


def has_no_other(field, row):
    """Whether a row has no field but the port, the guarded one and, for an IPv4 destination, the type."""
    if field == DL_DST:
        return (row.dl_src, row.dl_type, row.nw_dst) == (None, None, None)
    return (row.dl_src, row.dl_dst) == (None, None)


class Network:
    """Links; a hop is one way of a link, and a place the port that it comes in at."""

    def __init__(self, links):
        self.links = links
        self.hops = [(one, other) for link in links for one, other in (link, link[::-1])]
        self.places = sorted(to for _, to in self.hops)

    def over(self, dpid, port, rows):
        """Where rows send packets that came in at a port: the ends that they come in at."""
        found = set()
        for start, to in self.hops:
            for out in (out for row in rows for out in row.ports if out != EDIT and start[0] == dpid):
                goes = start[1] == port if out == IN_PORT else start[1] != port and out in (ALL, FLOOD, start[1])
                if goes:
                    found.add(to)
        return frozenset(found)

    def edit(self, dpid, table):
        """The place of the first row that changes packets and sends them to a link."""
        ends = {start[1] for start, _ in self.hops if start[0] == dpid}
        for at, row in enumerate(sorted(table or (), key=Row.key)):
            crosses = any(out in ends or out in (IN_PORT, ALL, FLOOD) for out in row.ports if out != EDIT) and ends
            if EDIT in row.ports and crosses:
                return at
        return None

    @functools.lru_cache(maxsize=None)
    def loops(self, *steps):
        """The least place that leads to itself. The steps are those of each switch, (place, ends that it leads to), or None without a table."""
        joined = {dpid for dpid, step in zip(SWITCHES, steps) if step is not None}
        ways = {place: {to for to in tos if to[0] in joined} for step in steps if step is not None for place, tos in step}
        for place in self.places:
            seen, left = set(), list(ways.get(place, ()))
            while left:
                at = left.pop()
                if at not in seen:
                    seen.add(at)
                    left += ways[at]
            if place in seen:
                return place
        return None


class Table:
    """What is worked out of a table of a switch: so tables that do the same are looked at once."""

    def __init__(self, network, field, dpid, rows):
        ports = sorted(port for at, port in network.places if at == dpid)
        rows_in_order = None if rows is None else sorted(rows, key=Row.key)
        self.edit = network.edit(dpid, rows)
        self.named = frozenset().union(*(named(field, row) for row in rows or ()))
        self.is_plain = all(has_no_other(field, row) for row in rows or ())
        values = dict.fromkeys(value for value, _ in PACKETS[field])

        def steps(chosen):
            if rows is None:
                return None
            return tuple(((dpid, port), network.over(dpid, port, chosen(port))) for port in ports)

        def considered(value, port):
            found = []
            for row in rows_in_order:
                if may_take(field, value, port, row):
                    found.append(row)
                    if has_no_other(field, row):
                        break
            return found

        self.by_value = {value: steps(lambda port, value=value: considered(value, port)) for value in values}
        self.by_packet = tuple(steps(lambda port, it=it: [row for row in rows_in_order if it.hits(row, port)][:1]) for _, it in PACKETS[field])
        self.same = (self.edit, self.named, self.is_plain, tuple(self.by_value.items()), self.by_packet)


class Differs(Exception):
    """What was found is not what is to be."""


def found_in(network, field, tables):
    """What is to be found, in the program's words."""
    for dpid, table in zip(SWITCHES, tables):
        if table.edit is not None:
            return f"E{dpid}:{table.edit}"
    back = {value: set() for value, _ in PACKETS[field]}
    for at, (value, _) in enumerate(PACKETS[field]):
        back[value].add(network.loops(*(table.by_packet[at] for table in tables)))
    numbers = sorted(set().union(*(table.named for table in tables)) | ({0} if field == NW_DST else set()))
    found = "."
    for value in numbers + ([None] if field == DL_DST else []):
        place = network.loops(*(table.by_value[value] for table in tables))
        if place is not None:
            found = f"L{'*' if value is None else value}:{place[0]}:{place[1]}"
            if all(table.is_plain for table in tables) and place not in back[value]:
                raise Differs(f"no packet comes back to what the definition finds: {found}")
            break
    walked = any(place is not None for places in back.values() for place in places)
    if walked and found == ".":
        raise Differs("a packet comes back, and the definition finds nothing")
    if all(table.is_plain for table in tables) and walked != (found != "."):
        raise Differs(f"no packet comes back, and the definition finds {found}")
    return found


def hold(program, network, field, choices, every):
    """Holds all choices against the program; gives how many there were, and how many were refused."""
    numbered, kinds = [], []
    for dpid in SWITCHES:
        numbers, kept = {}, []
        tables = [Table(network, field, dpid, rows) for rows in choices]
        numbered.append([numbers.setdefault(table.same, len(numbers)) for table in tables])
        for table, number in zip(tables, numbered[-1]):
            if number == len(kept):
                kept.append(table)
        kinds.append(kept)

    @functools.lru_cache(maxsize=None)
    def line(first, second):
        words = [found_in(network, field, (kinds[0][first], kinds[1][second], third)) for third in kinds[2]]
        return "".join(f"{words[number]} " for number in numbered[2]) + "\n"

    asked = refused = 0
    with tempfile.TemporaryFile() as file:
        file.write(guard_input.rule(field, network.links) + guard_input.numbers(every, len(choices)))
        file.write(b"".join(guard_input.rows(it) for it in choices))
        file.seek(0)
        with subprocess.Popen([program, "each"], stdin=file, stdout=subprocess.PIPE, text=True) as child:
            for first, second in itertools.product(range(0, len(choices), every), range(len(choices))):
                try:
                    due = line(numbered[0][first], numbered[1][second])
                except Differs as fault:
                    raise Differs(f"{fault}: {choices[first]}, {choices[second]}, and a table") from None
                got = child.stdout.readline()
                if got != due:
                    differ = [(one, other, choices[at]) for at, (one, other) in enumerate(zip(got.split(), due.split())) if one != other]
                    raise Differs(f"{choices[first]}, {choices[second]}: found, due, the third table: {differ[:1] or got[:80]}")
                asked += len(choices)
                refused += len(choices) - due.count(". ")
        if child.returncode:
            raise Differs(f"the program ends with status {child.returncode}")
    return asked, refused


def main():
    parser = argparse.ArgumentParser(description=__doc__, formatter_class=argparse.RawDescriptionHelpFormatter)
    parser.add_argument("program", nargs="?", default=PROGRAM, metavar="PROGRAM")
    parser.add_argument("--every", type=int, default=1, metavar="N", help="each Nth table of the first switch alone (1: all)")
    parser.add_argument("--only", default="", metavar="WORD", help="the networks and families alone whose names have this word")
    asked = parser.parse_args()
    all_asked = 0
    for (name, links), (rows, (field, choices)) in itertools.product(NETWORKS.items(), FAMILIES.items()):
        if asked.only not in f"{name}, {rows}":
            continue
        try:
            count, refused = hold(asked.program, Network(links), field, choices, asked.every)
        except Differs as fault:
            print(f"{name}, {rows}: DIFFERS: {fault}")
            return 1
        print(f"{name}, {rows}: {len(choices)} tables a switch, {count:,} choices, {refused:,} refused", flush=True)
        all_asked += count
    print(f"all {all_asked:,} choices are found as they are to be")
    return 0


sys.exit(main())
