"""Switches of OpenFlow 1.0 that a program plays to a controller over TCP, each with a flow table of its own."""

import dataclasses
import os
import socket
import struct
import sys
import threading
import time

sys.path.insert(0, os.path.join(os.path.dirname(os.path.abspath(__file__)), "..", "sdk", "python"))
from legosdn import messages
from legosdn.codes import ALL_TABLES, NO_BUFFER, FlowCommand, Port, RemovedReason, StatsKind
from legosdn.match import Match
from legosdn.messages import PortDesc
from legosdn.stats import AggregateStats, DescStats, FlowQuestion, FlowStats, PortStats, TableStats

SECONDS = 30
MISS, ACTION = 0, 1
PORTS = (1, 2, 3)
BAD_REQUEST, BAD_STAT = 1, 2
BAD_ACTION, BAD_OUT_PORT = 2, 4
MORE = 1
FIELDS = [it.name for it in dataclasses.fields(Match)]


def connection(port):
    """A connection to the controller, as soon as it listens."""
    end = time.monotonic() + SECONDS
    while True:
        try:
            link = socket.create_connection(("127.0.0.1", port), 1)
            link.settimeout(None)
            link.setsockopt(socket.IPPROTO_TCP, socket.TCP_NODELAY, 1)
            return link
        except OSError:
            if time.monotonic() > end:
                raise
            time.sleep(0.02)


def read(link, size):
    """So many bytes, or None where the other end has closed."""
    data = b""
    while len(data) < size:
        piece = link.recv(size - len(data))
        if not piece:
            return None
        data += piece
    return data


def is_within(match, wider):
    """Whether each packet of this match is one of the wider match, which has no addresses with a prefix."""
    return all(getattr(wider, it) in (None, getattr(match, it)) for it in FIELDS)


def notice_of(key, entry):
    """The notice that an entry was deleted."""
    priority, match = key
    _, cookie = entry
    return messages.FlowRemoved(match, cookie, priority, RemovedReason.DELETE)


class Switch(threading.Thread):
    """A switch with ports 1, 2 and 3. It answers by itself; `said` has what it was sent: (kind, entry) for each FLOW_MOD and (kind,
    frame) for each PACKET_OUT, ("STATS", None) for each request of statistics, in order, and "BARRIER" for each barrier.

    table     priority and match of each entry, with its actions and cookie; an earlier connection's, where it joins again
    frames    (port, frame) for each frame that packets have sent out by a port, in order
    barriers  how many barriers it has answered: one when it joined, and one for each change and each packet
    cut_at    the link is cut where this many messages of this kind have come, in the place of the next barrier's reply
    cut_by    how it is cut: it is ended, it is reset, or nothing is said any more
    backwards whether it tells its entries in another order than that of the keys
    others    entries that somebody else deletes, each by what the switch is sent when that happens: a member of `said`
    notices   of the entries that the controller deletes: none are told, or they are put off until `tell_notices`
    counts    (packets, bytes) of entries; of the others nothing is counted
    in_part   how many rows a part of a reply of statistics has at most; without a number all are in one part
    refused   the kinds of statistics that are refused
    silent    those that are passed over
    probe     after so many seconds without a word the controller is asked whether it is there, and left after so many more
    waits     how long it waited for each answer to these questions
    """

    def __init__(self, port, dpid, cut_at=None, cut_by="end", backwards=False, others=None, table=None, notices=None, probe=None,
                 counts=None, in_part=None, refused=(), silent=()):
        super().__init__(daemon=True)
        self.backwards, self.others, self.notices, self.probe = backwards, dict(others or {}), notices, probe
        self.counts, self.in_part, self.refused, self.silent = dict(counts or {}), in_part, refused, silent
        self.dpid, self.table, self.said, self.frames = dpid, dict(table or {}), [], []
        self.cut_at, self.cut_by = cut_at, cut_by
        self.changed = threading.Condition()
        self.barriers = 0
        self.closed = False
        self.waits, self.asked, self.heard = [], None, time.monotonic()
        self.link = connection(port)
        self.start()
        if probe:
            threading.Thread(target=self.probes, daemon=True).start()

    # What the check does

    def wait(self, holds, what):
        """Waits until this holds of the switch."""
        with self.changed:
            if not self.changed.wait_for(lambda: holds(self), SECONDS):
                raise AssertionError(f"switch {self.dpid}: {what} did not come")

    def miss(self, in_port, frame):
        """A frame came that no entry is for: a PACKET_IN."""
        self.send(messages.PacketIn(NO_BUFFER, len(frame), in_port, MISS, frame))

    def delete(self, key):
        """Somebody else deletes this entry: a FLOW_REMOVED, which the controller asks for at each entry."""
        with self.changed:
            self.send(self.drop(key))

    def deny(self, key):
        """Says that this entry was deleted, which stands."""
        with self.changed:
            self.send(notice_of(key, self.table[key]))

    def drop(self, key):
        """Removes this entry; gives the notice of it."""
        return notice_of(key, self.table.pop(key))

    def tell_notices(self):
        """Tells of all that the controller has deleted so far."""
        with self.changed:
            self.link.sendall(b"".join(messages.encode(notice) for notice in self.notices))
            self.notices.clear()

    def entries(self):
        with self.changed:
            return dict(self.table)

    def leave(self):
        self.link.shutdown(socket.SHUT_RDWR)
        self.link.close()

    def is_closed_by_host(self):
        """Whether the controller closes the connection of a switch that says nothing any more."""
        self.link.settimeout(SECONDS)
        return read(self.link, 1) is None

    # What the switch does

    def send(self, message, xid=0):
        self.link.sendall(messages.encode(message, xid))

    def run(self):
        try:
            self.send(messages.Hello())
            while self.answer():
                pass
        except OSError:
            pass
        with self.changed:
            self.closed = True
            self.changed.notify_all()

    def probes(self):
        """Asks the controller whether it is there where it says nothing, and leaves where it does not answer."""
        while not self.closed:
            time.sleep(0.05)
            with self.changed:
                silent = time.monotonic() - max(self.heard, self.asked or 0)
                if silent > self.probe and self.asked:
                    self.waits.append(silent)
                    self.leave()
                    return
                if silent > self.probe:
                    self.asked = time.monotonic()
                    self.send(messages.EchoRequest())

    def answer(self):
        head = read(self.link, 8)
        if head is None:
            return False
        rest = read(self.link, int.from_bytes(head[2:4], "big") - 8)
        if rest is None:
            return False
        xid, message = messages.decode(head + rest)
        with self.changed:
            self.heard = time.monotonic()
            went_on = self.act(xid, message)
            self.changed.notify_all()
        return went_on

    def act(self, xid, message):
        if isinstance(message, messages.FeaturesRequest):
            ports = tuple(PortDesc(port_no=n, hw_addr=f"02:00:00:00:{self.dpid:02x}:{n:02x}", name=f"port{n}") for n in PORTS)
            self.send(messages.FeaturesReply(self.dpid, 0, 1, 0, 0xFFF, ports), xid)
        elif isinstance(message, messages.EchoRequest):
            self.send(messages.EchoReply(message.data), xid)
        elif isinstance(message, messages.EchoReply) and self.asked:
            self.waits.append(self.heard - self.asked)
            self.asked = None
        elif isinstance(message, messages.FlowMod):
            self.change(xid, message)
        elif isinstance(message, messages.PacketOut):
            self.put_out(xid, message)
        elif isinstance(message, messages.BarrierRequest):
            if self.cut_at and sum(said[0] == self.cut_at[0] for said in self.said) >= self.cut_at[1]:
                self.cut()
                return False
            self.confirm(xid)
        elif isinstance(message, messages.StatsRequest):
            self.said.append(("STATS", None))
            self.tell_statistics(xid, message)
        if self.said and self.said[-1] in self.others:
            self.send(self.drop(self.others.pop(self.said[-1])))
        return True

    def confirm(self, xid):
        """Answers a barrier."""
        self.said.append("BARRIER")
        self.send(messages.BarrierReply(), xid)
        self.barriers += 1

    def tell_statistics(self, xid, asked):
        """Answers a request of statistics, in parts, or refuses it, or passes it over."""
        if asked.kind in self.silent:
            return
        if asked.kind in self.refused:
            self.send(messages.Error(BAD_REQUEST, BAD_STAT, messages.encode(asked, xid)[:64]), xid)
            return
        rows = self.statistics(StatsKind(asked.kind), asked.data)
        each = self.in_part or len(rows) or 1
        parts = [b"".join(rows[at : at + each]) for at in range(0, len(rows), each)] or [b""]
        for part in parts[:-1]:
            self.send(messages.StatsReply(asked.kind, part, MORE), xid)
        self.send(messages.StatsReply(asked.kind, parts[-1]), xid)

    def statistics(self, kind, data):
        """The rows of a reply."""
        if kind == StatsKind.DESC:
            return [DescStats("lego", "played", "1", "0", f"switch {self.dpid}").encode()]
        if kind == StatsKind.TABLE:
            return [TableStats(0, "table0", 0x3FFFFF, 4096, len(self.table), 0, 0).encode()]
        if kind == StatsKind.PORT:
            wanted = int.from_bytes(data[:2], "big")
            return [PortStats(port, rx_packets=10 * port).encode() for port in PORTS if wanted in (port, Port.NONE)]
        found = self.rows(FlowQuestion.decode(data))
        if kind == StatsKind.FLOW:
            return [row.encode() for row in found]
        return [AggregateStats(sum(row.packet_count for row in found), sum(row.byte_count for row in found), len(found)).encode()]

    def rows(self, asked):
        """The rows of the entries that are asked for; there is one table, with the number 0."""
        found = [it for it in self.table.items() if asked.table_id in (0, ALL_TABLES) and is_within(it[0][1], asked.match)]
        found.sort(key=lambda it: (-it[0][0], it[0][1].encode()), reverse=self.backwards)
        return [
            FlowStats(match, actions, 0, 0, 0, priority, 0, 0, cookie, *self.counts.get((priority, match), (0, 0)))
            for (priority, match), (actions, cookie) in found
        ]

    def cut(self):
        if self.cut_by == "reset":
            self.link.setsockopt(socket.SOL_SOCKET, socket.SO_LINGER, struct.pack("ii", 1, 0))
        if self.cut_by != "silence":
            self.link.close()

    def change(self, xid, change):
        key = (change.priority, change.match)
        self.said.append((FlowCommand(change.command).name, key))
        if change.command == FlowCommand.ADD:
            self.table[key] = (change.actions, change.cookie)
        elif change.command == FlowCommand.DELETE_STRICT:
            self.remove([key] if key in self.table else [])
        elif change.command == FlowCommand.DELETE and change.match == Match():
            self.remove(list(self.table))
        else:
            raise AssertionError(f"switch {self.dpid}: a FLOW_MOD that no host sends yet: {change}")

    def remove(self, keys):
        """Removes the entries that the controller deletes."""
        dropped = [self.drop(key) for key in keys]
        if self.notices is not None:
            self.notices += dropped

    def put_out(self, xid, packet):
        """A packet whose actions are outputs: to ports, FLOOD or CONTROLLER."""
        self.said.append(("PACKET_OUT", packet.data))
        to = [action.port for action in packet.actions]
        if not all(port in (*PORTS, Port.FLOOD, Port.CONTROLLER) for port in to):
            self.send(messages.Error(BAD_ACTION, BAD_OUT_PORT, messages.encode(packet, xid)[:64]), xid)
            return
        for port in to:
            if port == Port.CONTROLLER:
                self.send(messages.PacketIn(NO_BUFFER, len(packet.data), packet.in_port, ACTION, packet.data))
            self.frames += [(it, packet.data) for it in PORTS if it != packet.in_port and port in (it, Port.FLOOD)]
