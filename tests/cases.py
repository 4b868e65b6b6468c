#!/usr/bin/env python3
"""Packets, one access point alone and the floor by document 01's rules, written down a second time from the document alone.

It goes by the same lines as the program floor_cases, whose main.rt says how they are written, and prints the same text:

    python3 tests/cases.py < crates/floor_cases/stdin | diff - crates/floor_cases/stdout

A record is held as the library holds it, in slots with how many are used, and a digest is of every slot. Document 01 says nothing of
slots that are not used: the library leaves them as they are and blanks a slot that a row, a move or a packet has left.
"""
import sys
from copy import deepcopy
from dataclasses import dataclass, field

ADD, NOTIFY, RESPONSE = 0, 1, 2
SUCCESSFUL, STALE_MOVE = 0, 1

# The records.


@dataclass
class Row:
    station: bytes = bytes(6)
    sequence: int = 0
    length: int = 0  # how many octets of the context are used
    octets: bytes = bytes(64)

    def take(self, context):
        self.length, self.octets = len(context), context.ljust(64, b"\0")

    def context(self):
        return self.octets[: self.length]


@dataclass
class Move:
    station: bytes = bytes(6)
    sequence: int = 0
    old: int = 0
    identifier: int = 0
    ticks: int = 0
    resends: int = 0


@dataclass
class Packet:
    sender: int = 0
    receiver: int = 0
    length: int = 0  # how many octets are used
    octets: bytes = bytes(82)

    def used(self):
        return self.octets[: self.length]


class Slots:
    """Some slots in order, of which the first `count` are used."""

    def __init__(self, blank, size):
        self.blank, self.count = blank, 0
        self.slots = [blank() for _ in range(size)]

    def used(self):
        return self.slots[: self.count]

    def full(self):
        return self.count == len(self.slots)

    def put(self, used):
        """These are used from now on. What is no longer used is blank; what was not used before stays."""
        freed = [self.blank() for _ in range(self.count - len(used))]
        self.slots = used + freed + self.slots[len(used) + len(freed):]
        self.count = len(used)

    def add(self, element):
        self.put(self.used() + [element])

    def remove(self, element):
        self.put([e for e in self.used() if e is not element])


@dataclass
class AccessPoint:
    rows: Slots = field(default_factory=lambda: Slots(Row, 16))
    moves: Slots = field(default_factory=lambda: Slots(Move, 8))
    next: int = 0
    opened: int = 0
    resent: int = 0
    answered: int = 0
    given_up: int = 0

    def row(self, station):
        """The station's row, or None."""
        return next((r for r in self.rows.used() if r.station == station), None)

    def use_identifier(self):
        identifier, self.next = self.next, (self.next + 1) % 65536
        return identifier

    def count(self, name, more=1):
        setattr(self, name, (getattr(self, name) + more) % 4294967296)


@dataclass
class Floor:
    aps: int = 0
    timeout: int = 0
    resends: int = 0
    points: list = field(default_factory=lambda: [AccessPoint() for _ in range(8)])
    air: Slots = field(default_factory=lambda: Slots(Packet, 64))


@dataclass
class Lone:
    """One AP's record with its own number, the floor's AP count, T and R."""

    number: int = 0
    aps: int = 0
    timeout: int = 0
    resends: int = 0
    point: AccessPoint = field(default_factory=AccessPoint)


class Refused(Exception):
    pass


def refuse_if(condition, number):
    if condition:
        raise Refused(number)


# Sequence numbers.


def distance(n, m):
    """Of n from m: in -2048..2047, and different from n - m by a multiple of 4096."""
    return next(d for d in range(-2048, 2048) if (d - (n - m)) % 4096 == 0)


def newer(n, m):
    return distance(n, m) >= 1


# Packets.


def number(octets):
    """The most significant octet comes first."""
    return int.from_bytes(octets, "big")


def two(n):
    return n.to_bytes(2, "big")


def packet(command, identifier, station, n, status=0, context=b""):
    """The octets of a packet. `status` is the octet of Status, or of Reserved."""
    tail = b"" if command == ADD else two(len(context)) + context
    data = bytes([6, status]) + station + two(n) + tail
    return bytes([0, command]) + two(identifier) + two(6 + len(data)) + data


def refusal_of_packet(octets):
    """0, or the first of the reader's refusals that applies."""
    if len(octets) < 6:
        return 1
    version, command, length = octets[0], octets[1], number(octets[4:6])
    if version != 0:
        return 2
    if command > 2:
        return 3
    if length > len(octets):
        return 4
    if (command == ADD and length != 16) or (command != ADD and length < 18):
        return 5
    data = octets[6:length]
    if data[0] != 6:
        return 6
    if number(data[8:10]) > 4095:
        return 7
    if command == RESPONSE and data[1] > 1:
        return 8
    if command != ADD:
        c = number(data[10:12])
        if c > 64 or length != 18 + c:
            return 9
    return 0


def read(octets):
    """Command, identifier, status, station, sequence, start and length of the context, context."""
    answer = refusal_of_packet(octets)
    refuse_if(answer != 0, answer)
    command, identifier, length = octets[1], number(octets[2:4]), number(octets[4:6])
    status = octets[7] if command == RESPONSE else 0
    start = 0 if command == ADD else 18
    context = b"" if command == ADD else octets[18:length]
    return command, identifier, status, octets[8:14], number(octets[14:16]), start, len(context), context


def write(command, identifier, status, station, n, context, room):
    """The octets of the packet, which go to the front of a buffer of that many octets."""
    refuse_if(command > 2, 3)
    refuse_if(n > 4095, 7)
    refuse_if(command == RESPONSE and status > 1, 8)
    refuse_if(command != ADD and len(context) > 64, 9)
    octets = packet(command, identifier, station, n, status if command == RESPONSE else 0, context)
    refuse_if(len(octets) > room, 10)
    return octets


# Refusal 14.


def bad_row(row):
    return row.sequence > 4095 or row.length > 64


def bad_move(move, aps):
    return move.sequence > 4095 or move.old >= aps or not 1 <= move.ticks <= 65535 or move.resends > 7


def bad_packet(p, aps):
    return p.sender >= aps or p.receiver >= aps or p.length > 82 or refusal_of_packet(p.used()) != 0


def bad_point(a, aps):
    if a.rows.count > 16 or a.moves.count > 8:
        return True
    stations = [r.station for r in a.rows.used()]
    return (len(set(stations)) < len(stations) or any(bad_row(r) for r in a.rows.used())
            or any(bad_move(m, aps) for m in a.moves.used()))


def bad_setup(aps, timeout, resends):
    return not 1 <= aps <= 8 or not 1 <= timeout <= 65535 or not 0 <= resends <= 7


def bad_floor(f):
    return (bad_setup(f.aps, f.timeout, f.resends) or any(bad_point(a, f.aps) for a in f.points[: f.aps])
            or f.air.count > 64 or any(bad_packet(p, f.aps) for p in f.air.used()))


def bad_lone(lone):
    return (bad_setup(lone.aps, lone.timeout, lone.resends) or lone.number >= lone.aps
            or bad_point(lone.point, lone.aps))


# One AP's record `a`. Each rule changes it and returns what is sent: the receiver and the octets of each packet, in order.


def join_point(a, at, setup, station, n, old, context):
    row = a.row(station)
    elsewhere = old is not None and old < setup.aps and old != at
    refuse_if(row is not None and not newer(n, row.sequence), 15)
    refuse_if(row is None and a.rows.full(), 16)
    refuse_if(elsewhere and a.moves.full(), 17)
    if row is None:
        row = Row(station)
        a.rows.add(row)
    row.sequence = n
    if old == at:
        return []
    identifier = a.use_identifier()
    if elsewhere:
        a.moves.add(Move(station, n, old, identifier, setup.timeout, setup.resends))
        a.count("opened")
        return [(old, packet(NOTIFY, identifier, station, n))]
    row.take(context)
    return [(i, packet(ADD, identifier, station, n)) for i in range(setup.aps) if i != at]


def leave_point(a, station):
    a.rows.remove(a.row(station))


def tick_point(a, timeout):
    """What is sent, and how many moves are given up."""
    sent, given_up = [], 0
    for move in a.moves.used():
        move.ticks -= 1
        if move.ticks > 0:
            continue
        if move.resends > 0:
            move.resends -= 1
            move.ticks = timeout
            sent.append((move.old, packet(NOTIFY, move.identifier, move.station, move.sequence)))
        else:
            a.moves.remove(move)
            given_up += 1
    a.count("resent", len(sent))
    a.count("given_up", given_up)
    return sent, given_up


def receive(a, sender, octets):
    command, identifier, status, station, n, _, _, context = read(octets)
    row = a.row(station)
    if command == ADD:
        if row is not None and newer(n, row.sequence):
            a.rows.remove(row)
        return []
    if command == NOTIFY:
        answer, context = SUCCESSFUL, b""
        if row is not None and newer(n, row.sequence):
            a.rows.remove(row)
            context = row.context()
        elif row is not None:
            answer = STALE_MOVE
        return [(sender, packet(RESPONSE, identifier, station, n, answer, context))]
    agreeing = [m for m in a.moves.used()
                if (m.identifier, m.station, m.sequence, m.old) == (identifier, station, n, sender)]
    if agreeing:
        a.moves.remove(agreeing[0])
        a.count("answered")
        if row is not None and row.sequence == n:
            if status == SUCCESSFUL:
                row.take(context)
            else:
                a.rows.remove(row)
    return []


# The floor's events. Each changes the floor that it is given and returns SENT, GIVENUP, HELD, TABLES; or it is refused.


def send(f, sender, packets):
    """Packets go into the air, or are lost there. They count as sent either way."""
    for receiver, octets in packets:
        if not f.air.full():
            f.air.add(Packet(sender, receiver, len(octets), octets.ljust(82, b"\0")))
    return len(packets)


def join(f, at, station, n, old, context):
    refuse_if(at >= f.aps, 11)
    refuse_if(station[0] % 2 == 1, 13)
    refuse_if(n > 4095, 7)
    refuse_if(len(context) > 64, 9)
    return send(f, at, join_point(f.points[at], at, f, station, n, old, context)), 0, 0, 0


def leave(f, at, station):
    refuse_if(at >= f.aps, 11)
    refuse_if(station[0] % 2 == 1, 13)
    leave_point(f.points[at], station)
    return 0, 0, 0, 0


def in_air(f, k):
    refuse_if(k >= f.air.count, 12)
    return f.air.used()[k]


def hand_over(f, p):
    return send(f, p.receiver, receive(f.points[p.receiver], p.sender, p.used())), 0, 0, 0


def deliver(f, k):
    p = in_air(f, k)
    f.air.remove(p)
    return hand_over(f, p)


def repeat(f, k):
    return hand_over(f, in_air(f, k))


def lose(f, k):
    f.air.remove(in_air(f, k))
    return 0, 0, 0, 0


def tick(f, at):
    refuse_if(at >= f.aps, 11)
    sent, given_up = tick_point(f.points[at], f.timeout)
    return send(f, at, sent), given_up, 0, 0


def who(f, station):
    refuse_if(station[0] % 2 == 1, 13)
    holders = [i for i in range(f.aps) if f.points[i].row(station) is not None]
    return 0, 0, sum(2**i for i in holders), len(holders)


def event(f, name, at, station, n, old, context):
    """ANSWER, SENT, GIVENUP, HELD, TABLES, and the floor after it."""
    after = deepcopy(f)
    try:
        refuse_if(bad_floor(f), 14)
        if name == "join":
            return (0, *join(after, at, station, n, old, context), after)
        if name == "leave":
            return (0, *leave(after, at, station), after)
        if name == "who":
            return (0, *who(after, station), after)
        return (0, *{"deliver": deliver, "repeat": repeat, "lose": lose, "tick": tick}[name](after, at), after)
    except Refused as refusal:
        return refusal.args[0], 0, 0, 0, 0, f


def set_up(aps, timeout, resends):
    return (14, Floor()) if bad_setup(aps, timeout, resends) else (0, Floor(aps, timeout, resends))


# The calls of one AP alone. Each changes the record that it is given and returns what is sent, GIVENUP and HELD; or it is refused.


def lone_join(lone, station, n, old, context):
    refuse_if(station[0] % 2 == 1, 13)
    refuse_if(n > 4095, 7)
    refuse_if(len(context) > 64, 9)
    return join_point(lone.point, lone.number, lone, station, n, old, context), 0, 0


def lone_leave(lone, station):
    refuse_if(station[0] % 2 == 1, 13)
    leave_point(lone.point, station)
    return [], 0, 0


def lone_tick(lone):
    return *tick_point(lone.point, lone.timeout), 0


def lone_who(lone, station):
    refuse_if(station[0] % 2 == 1, 13)
    return [], 0, 0 if lone.point.row(station) is None else 1


def outside(lone, sender, octets):
    refuse_if(sender >= lone.aps or sender == lone.number, 11)
    return receive(lone.point, sender, octets), 0, 0


def call(lone, room, rule, *arguments):
    """ANSWER, SENT, GIVENUP, HELD, the receivers, the octets written, and the record after it."""
    after = deepcopy(lone)
    try:
        refuse_if(bad_lone(lone), 14)
        sent, given_up, held = rule(after, *arguments)
        octets = b"".join(octets for _, octets in sent)
        refuse_if(len(octets) > room, 10)
        return 0, len(sent), given_up, held, bytes(to for to, _ in sent), octets, after
    except Refused as refusal:
        return refusal.args[0], 0, 0, 0, b"", b"", lone


def lone_set_up(lone, at, aps, timeout, resends):
    if bad_setup(aps, timeout, resends) or at >= aps:
        return 14, lone
    return 0, Lone(at, aps, timeout, resends)


# The digests.


def values_of_point(a):
    """Every number and every octet of an AP's record, in order."""
    for r in a.rows.slots:
        yield from (*r.station, r.sequence, r.length, *r.octets)
    yield a.rows.count
    for m in a.moves.slots:
        yield from (*m.station, m.sequence, m.old, m.identifier, m.ticks, m.resends)
    yield from (a.moves.count, a.next, a.opened, a.resent, a.answered, a.given_up)


def values_of_floor(f):
    yield from (f.aps, f.timeout, f.resends)
    for a in f.points:
        yield from values_of_point(a)
    for p in f.air.slots:
        yield from (p.sender, p.receiver, p.length, *p.octets)
    yield f.air.count


def values_of_lone(lone):
    yield from values_of_point(lone.point)
    yield from (lone.number, lone.aps, lone.timeout, lone.resends)


def digest(values):
    h = 1
    for x in values:
        h = (h * 1000003 + x) % 4294967291
    return h


# The words of a line.


def number_of(word):
    """`-` is none, and so is a missing word."""
    return None if word == "-" else int(word)


def station_of(word):
    if len(word) == 12:
        return bytes.fromhex(word)
    s = number_of(word) or 0
    return bytes([2 if s < 1000 else 3, 0, 0, 0]) + two(s)


def octets_of(word):
    digits, _, more = word.partition("*")
    octets = bytes.fromhex(digits.replace("-", ""))
    last = octets[-1] if octets else 255
    return octets + bytes((last + 1 + i) % 256 for i in range(int(more or 0)))


def filled(words, count):
    """The words, and `-` for each that is missing."""
    return words + ["-"] * (count - len(words))


def shown(octets):
    return octets.hex() or "-"


# Parts of the records put in place.


def set_row(slots, i, name, words):
    if name == "":
        row = Row(station_of(words[0]), int(words[1]))
        row.take(octets_of(words[2]))
        slots[i] = row
    else:
        setattr(slots[i], name, station_of(words[0]) if name == "station" else int(words[0]))


def set_move(slots, i, name, words):
    if name == "":
        slots[i] = Move(station_of(words[0]), *map(int, words[1:]))
    else:
        setattr(slots[i], name, int(words[0]))


def set_slots(a, value):
    """Every octet and number of each slot, but for the ticks left."""
    station, high = bytes([value]) * 6, 257 * value
    a.rows.slots = [Row(station, high, value, bytes([value]) * 64) for _ in range(16)]
    a.moves.slots = [Move(station, high, value, high, 0, value) for _ in range(8)]


def set_point(a, whole, name, words):
    if whole == "row":
        set_row(a.rows.slots, int(words[0]), name, words[1:])
    elif whole == "move":
        set_move(a.moves.slots, int(words[0]), name, words[1:])
    elif name in ("rows", "moves"):
        getattr(a, name).count = int(words[0])
    elif name == "slots":
        set_slots(a, int(words[0]))
    else:
        for count in ("opened", "resent", "answered", "given_up") if name == "counts" else ("next",):
            setattr(a, count, int(words[0]))


def set_floor(f, part, words):
    whole, _, name = part.partition(".")
    if whole == "floor":
        if name == "air":
            f.air.count = int(words[0])
        else:
            setattr(f, name, int(words[0]))
    elif whole == "packet":
        p, values = f.air.slots[int(words[0])], list(map(int, words[1:]))
        if name == "octet":
            p.octets = p.octets[: values[0]] + bytes([values[1]]) + p.octets[values[0] + 1:]
        else:
            setattr(p, {"from": "sender", "to": "receiver", "length": "length"}[name], values[0])
    else:
        set_point(f.points[int(words[0])], whole, name, words[1:])


def set_lone(lone, part, words):
    whole, _, name = part.partition(".")
    if whole == "lone":
        setattr(lone, name, int(words[0]))
    else:
        set_point(lone.point, whole, name, words)


# The lines. Each prints the line with what came back.


class Records:
    def __init__(self):
        self.floor, self.lone, self.kept = Floor(), Lone(), Lone()


def on_packets(line, first, words):
    if first == "read":
        octets = octets_of(words[0])
        try:
            *numbers, station, n, start, length, context = (0, *read(octets))
        except Refused as refusal:
            *numbers, station, n, start, length, context = refusal.args[0], 0, 0, 0, bytes(6), 0, 0, 0, b""
        print(line, ":", *numbers, shown(station), n, start, length, shown(context))
        return
    room = int(words[-1])
    try:
        if first == "write":
            command, identifier, status, station, n, context = words[:-1]
            fields = int(command), int(identifier), int(status), station_of(station), int(n), octets_of(context)
        else:
            fields = *read(octets_of(words[0]))[:5], read(octets_of(words[0]))[-1]
        answer, octets = 0, write(*fields, room)
    except Refused as refusal:
        answer, octets = refusal.args[0], b""
    print(line, ":", answer, len(octets), shown(octets.ljust(room, b"\xEE")))


def record(lone):
    a = lone.point
    return (":", a.rows.count, a.moves.count, a.next, a.opened, a.resent, a.answered, a.given_up,
            digest(values_of_lone(lone)))


def on_lone(s, line, first, words):
    room = 0
    if first == "ap":
        answer, s.lone = lone_set_up(s.lone, *map(int, words))
        result = answer, 0, 0, 0, b"", b""
    elif first == "ap_join":
        station, n, old, context, room = words[0], int(words[1]), number_of(words[2]), words[3], int(words[4])
        old = None if old == 4294967295 else old
        *result, s.lone = call(s.lone, room, lone_join, station_of(station), n, old, octets_of(context))
    elif first == "ap_tick":
        room = int(words[0])
        *result, s.lone = call(s.lone, room, lone_tick)
    elif first == "outside":
        sender, octets, room = int(words[0]), octets_of(words[1]), int(words[2])
        *result, s.lone = call(s.lone, room, outside, sender, octets)
    else:
        rule = {"ap_leave": lone_leave, "ap_who": lone_who}[first]
        *result, s.lone = call(s.lone, 0, rule, station_of(words[0]))
    *numbers, to, octets = result
    print(line, ":", *numbers, to.ljust(8, b"\0").hex(), len(octets), shown(octets.ljust(room, b"\xEE")), *record(s.lone))


def put_lone(s, line, first, words):
    if first == "ap_set":
        s.lone = deepcopy(s.lone)
        set_lone(s.lone, words[0], words[1:])
    elif first == "ap_keep":
        s.kept = s.lone
    else:
        s.lone = s.kept
    print(line, *record(s.lone))


def on_floor(s, line, first, words):
    if first == "floor":
        answer, s.floor = set_up(*map(int, words))
        numbers = [answer]
    elif first == "set":
        s.floor = deepcopy(s.floor)
        set_floor(s.floor, words[0], words[1:])
        numbers = []
    else:
        at, station, n, old, context = filled(words, 5)
        *numbers, s.floor = event(s.floor, first, number_of(at) or 0, station_of(station), number_of(n) or 0,
                                  number_of(old), octets_of(context))
    print(line, ":", *numbers, digest(values_of_floor(s.floor)))


def act(s, line):
    first, *words = line.split(" ")
    if first in ("read", "write", "again"):
        on_packets(line, first, words)
    elif first in ("ap", "ap_join", "ap_leave", "ap_tick", "ap_who", "outside"):
        on_lone(s, line, first, words)
    elif first in ("ap_set", "ap_keep", "ap_back"):
        put_lone(s, line, first, words)
    elif first in ("floor", "set", "join", "leave", "deliver", "repeat", "lose", "tick", "who"):
        on_floor(s, line, first, words)
    elif line.startswith("="):
        print(line)
    else:
        sys.exit("no such call: " + line)


def main():
    s = Records()
    for line in sys.stdin.read().splitlines():
        act(s, line)


if __name__ == "__main__":
    main()
