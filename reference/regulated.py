#!/usr/bin/env python3
"""A reference for the regulated path, written from its rules (docs/RULES.md states them).

  regulated.py check PLAN TRACE    what the readers make of the two texts, or their first fault
  regulated.py replay PLAN TRACE   the records of all parties in plan order, or the first fault
  regulated.py makes SCRIPT        one scheduler driven by a script
  regulated.py paths SCRIPT        one path driven by a script

A script for a scheduler has one command a line; fields are parted by blanks or tabs, lines that are empty
or begin with # are passed over. Each command prints its own line and its answer:

  MAKE kind             EDF, SP, TABLE, or a SWITCH number (0 EDF, 1 SP, else TABLE): a fresh one
  GRANT party s d       OK, or NO cause
  WITHDRAW party        OK, or NO cause
  PUT party label       OK, or NO cause
  SERVE                 CELL party label eligible due, or NONE, or NO cause
  IDLE n                n serves that must answer NONE: OK
  FLOW party n          n slots, in each a put of the party and a serve: OK accepted served
  TURNS party           TABLE only: period and offset of the party's turns

A script for a path drives it from the front as what stands behind a hop is driven, without bookings
and the four calls. Lines are as above. A fault is NO number layer party hop:

  PATH kind:link ..            1 to 3 hops, from the front, kinds 0 EDF, 1 SP, 2 TABLE: a fresh path: OK
  GRANT party s lead b0 .. b7  always eight bounds: OK, or the fault
  WITHDRAW party               OK, or the fault
  ENTER byte .. arrival        the bytes of a header and the arrival slot: OK, or the fault
  TICK                         its own line alone; then a line SENT slot hop party ahead label for each
                               hop that sent, then GOT slot party label for each party that was
                               delivered; or a line with the fault
  RUN n                        n ticks, up to the first that is refused
  HOLDS party                  YES or NO: whether a cell of the party is on the path
  RESET                        the path is fresh again: OK
"""

import re
import sys

LAST = 16_777_215
PARTIES = 16
HOPS = 8            # the most hops of a path; also the number of its end
LINK_MAX = 63
CALENDAR = 192
HELD_MAX = 128
TURNS = 128
TEXT_MAX = 32_768
TERM_MAX = 65_535
LABEL_MAX = 4_294_967_295
RECORD_SIZE = 16_384

SCHEDULER, HOP, PATH, PLAN, TRACE, RECORD, HEADER = range(1, 8)


class Fault(Exception):
    """A refusal. Party and hop 255 and line 0 mean none."""

    def __init__(self, cause, layer, party=255, hop=255, line=0):
        super().__init__(cause)
        self.cause, self.layer, self.party, self.hop, self.line = cause, layer, party, hop, line

    def text(self):
        return text_line('FAULT', self.cause, self.layer, self.party, self.hop, self.line)


def text_line(*fields):
    return ('\t'.join(str(f) for f in fields) + '\n').encode()


def ceil_div(a, b):
    return -(-a // b)


def power_of_two_at_most(n):
    return 1 << (n.bit_length() - 1)


# ---------------------------------------------------------------- schedulers

class Contract:
    def __init__(self, s, d):
        self.s, self.d, self.last = s, d, None


class Scheduler:
    """The four calls. A make adds its own test and its choice of the cell to serve."""

    def __init__(self):
        self.slot = 0
        self.contracts = {}     # party: Contract
        self.held = {}          # (party, eligible slot): label

    def fault(self, cause, party=255):
        return Fault(cause, SCHEDULER, party)

    def due(self, cell):
        party, eligible = cell
        return eligible + self.contracts[party].d - 1

    def grant(self, party, s, d):
        if party >= PARTIES:
            raise self.fault(1, party)
        if party in self.contracts:
            raise self.fault(2, party)
        if not 1 <= s <= 1024:
            raise self.fault(3, party)
        if not 1 <= d <= 128:
            raise self.fault(4, party)
        if self.held:
            raise self.fault(6, party)
        cause = self.test([(c.s, c.d) for c in self.contracts.values()] + [(s, d)])
        if cause:
            raise self.fault(cause, party)
        self.contracts[party] = Contract(s, d)
        self.granted(party)

    def withdraw(self, party):
        if party not in self.contracts:
            raise self.fault(13, party)
        if any(p == party for p, _ in self.held):
            raise self.fault(18, party)
        del self.contracts[party]
        self.withdrawn(party)

    def put(self, party, label):
        if party not in self.contracts:
            raise self.fault(13, party)
        c = self.contracts[party]
        if c.last is not None and self.slot < c.last + c.s:
            raise self.fault(14, party)
        self.held[party, self.slot] = label
        c.last = self.slot

    def serve(self):
        """None, or (party, label, eligible slot, due slot)."""
        if self.slot > LAST:
            raise self.fault(17)
        cell = self.choice()
        answer = None
        if cell is not None:
            answer = (cell[0], self.held.pop(cell), cell[1], self.due(cell))
        self.slot += 1
        assert all(self.due(c) >= self.slot for c in self.held), 'the law is broken'
        return answer

    def granted(self, party):
        pass

    def withdrawn(self, party):
        pass


def too_many_held(contracts):
    return sum(ceil_div(d, s) for s, d in contracts) > HELD_MAX


class EDF(Scheduler):
    def test(self, contracts):
        if too_many_held(contracts):
            return 8
        for period in range(1, 1025):
            if sum(ceil_div(period, s) for s, _ in contracts) <= period:
                break
        else:
            return 9
        for span in range(1, period + 1):
            if sum((span - d) // s + 1 for s, d in contracts if d <= span) > span:
                return 10
        return 0

    def choice(self):
        return min(self.held, key=lambda c: (self.due(c), c[0]), default=None)


class SP(Scheduler):
    @staticmethod
    def level(d):
        return d.bit_length() - 1

    def test(self, contracts):
        if too_many_held(contracts):
            return 8
        for level in {self.level(d) for _, d in contracts}:
            span = 1 << level
            if sum(ceil_div(span, s) for s, d in contracts if self.level(d) <= level) > span:
                return 11
        return 0

    def choice(self):
        return min(self.held, key=lambda c: (self.level(self.contracts[c[0]].d), c[1], c[0]), default=None)


class TABLE(Scheduler):
    def __init__(self):
        super().__init__()
        self.owner = [None] * TURNS

    @staticmethod
    def period(s, d):
        return power_of_two_at_most(min(s, d))

    def free_offset(self, period):
        for offset in range(period):
            if all(self.owner[k] is None for k in range(offset, TURNS, period)):
                return offset
        return None

    def test(self, contracts):
        s, d = contracts[-1]
        return 12 if self.free_offset(self.period(s, d)) is None else 0

    def granted(self, party):
        c = self.contracts[party]
        period = self.period(c.s, c.d)
        for k in range(self.free_offset(period), TURNS, period):
            self.owner[k] = party

    def withdrawn(self, party):
        self.owner = [None if o == party else o for o in self.owner]

    def choice(self):
        owner = self.owner[self.slot % TURNS]
        return min((c for c in self.held if c[0] == owner), default=None)


KINDS = {'EDF': EDF, 'SP': SP, 'TABLE': TABLE}


def make(kind):
    """A fresh scheduler of a kind, or of a SWITCH number."""
    if kind in KINDS:
        return KINDS[kind]()
    return (EDF, SP)[int(kind)]() if int(kind) < 2 else TABLE()


# ---------------------------------------------------------------- the header

def write_header(party, ahead, label):
    if party >= PARTIES:
        raise Fault(21, HEADER, party)
    if ahead > 127:
        raise Fault(22, HEADER, party)
    return bytes([party, ahead]) + label.to_bytes(4, 'big')


def read_header(data):
    if len(data) != 6:
        raise Fault(20, HEADER)
    if data[0] >= PARTIES:
        raise Fault(21, HEADER, data[0])
    if data[1] > 127:
        raise Fault(22, HEADER, data[0])
    return data[0], data[1], int.from_bytes(data[2:], 'big')


# ---------------------------------------------------------------- hops and the end

class Terms:
    """What a hop or an end keeps of a contract."""

    def __init__(self, s, bound, lead, constant):
        self.s, self.bound, self.lead, self.constant = s, bound, lead, constant
        self.last_delivery = None


class Segment:
    """What a hop and the end have in common: a path from here on."""

    def __init__(self, number):
        self.number = number
        self.slot = 0
        self.contracts = {}     # party: Terms
        self.waiting = {}       # eligible slot: {party: label}

    def fault(self, cause, party=255, hop=255):
        return Fault(cause, HOP, party, hop)

    def check_grant(self, party, s, bounds, lead):
        if party >= PARTIES:
            raise self.fault(1, party)
        if party in self.contracts:
            raise self.fault(2, party)
        if not 1 <= s <= 1024:
            raise self.fault(3, party)
        bad = first_bad_bound(bounds, self.length())
        if not 1 <= lead <= 191:
            bad = 0
        if bad is not None:
            raise self.fault(4, party, min(self.number + bad, HOPS))
        if self.cells():
            raise self.fault(6, party)

    def check_calendar(self, party, s, lead):
        leads = [(c.lead, c.s) for c in self.contracts.values() if c.bound > 0 or self.number == HOPS]
        if sum(ceil_div(n, m) for n, m in leads + [(lead, s)]) > CALENDAR:
            raise self.fault(7, party, self.number)

    def check_enter(self, data, arrival):
        party, ahead, label = read_header(data)
        eligible = arrival + ahead
        if party not in self.contracts:
            raise self.fault(13, party)
        c = self.contracts[party]
        if not self.slot <= eligible < self.slot + c.lead:
            raise self.fault(19, party)
        leaves = eligible + c.constant
        others = [v for p, v in self.cells() if p == party] + self.last_deliveries(party)
        if any(abs(leaves - v) < c.s for v in others):
            raise self.fault(14, party)
        return party, label, eligible

    def check_withdraw(self, party):
        if party not in self.contracts:
            raise self.fault(13, party)
        if any(p == party for p, _ in self.cells()):
            raise self.fault(18, party)

    def wait(self, party, label, eligible):
        self.waiting.setdefault(eligible, {})[party] = label

    def waiting_cells(self):
        return [(p, e) for e, day in self.waiting.items() for p in day]


def first_bad_bound(bounds, length):
    """The lowest place with a bound that is neither 0 nor one that a hop there may have."""
    for k, d in enumerate(bounds):
        if d > (128 if k < length else 0):
            return k
    return None


class End(Segment):
    def __init__(self):
        super().__init__(HOPS)

    def length(self):
        return 0

    def cells(self):
        """Party and leaving slot of each cell from here on."""
        return self.waiting_cells()

    def last_deliveries(self, party):
        last = self.contracts[party].last_delivery
        return [] if last is None else [last]

    def grant(self, party, s, bounds, lead):
        self.check_grant(party, s, bounds, lead)
        self.check_calendar(party, s, lead)
        self.contracts[party] = Terms(s, 0, lead, 0)

    def withdraw(self, party):
        self.check_withdraw(party)
        del self.contracts[party]

    def enter(self, data, arrival):
        self.wait(*self.check_enter(data, arrival))

    def tick(self, deliveries, sends):
        if self.slot > LAST:
            raise self.fault(17)
        for party, label in self.waiting.pop(self.slot, {}).items():
            deliveries[party] = label
            self.contracts[party].last_delivery = self.slot
        self.slot += 1

    def skip_to(self, slot):
        self.slot = slot


class Hop(Segment):
    def __init__(self, number, kind, link, behind):
        super().__init__(number)
        self.scheduler = make(kind)
        self.link = min(link, LINK_MAX)
        self.behind = behind

    def length(self):
        return 1 + self.behind.length()

    def cells(self):
        here = self.waiting_cells() + list(self.scheduler.held)
        return [(p, e + self.contracts[p].constant) for p, e in here] + self.behind.cells()

    def last_deliveries(self, party):
        return self.behind.last_deliveries(party)

    def grant(self, party, s, bounds, lead):
        self.check_grant(party, s, bounds, lead)
        bound, rest = (bounds[0], bounds[1:]) if bounds else (0, [])
        if bound == 0:
            self.behind.grant(party, s, rest, lead)
        else:
            self.check_calendar(party, s, lead)
            try:
                self.scheduler.grant(party, s, bound)
            except Fault as fault:
                if fault.hop == 255:
                    fault.hop = self.number
                raise
            try:
                self.behind.grant(party, s, rest, bound + self.link)
            except Fault:
                self.scheduler.withdraw(party)
                raise
        constant = self.behind.contracts[party].constant + (bound + self.link if bound else 0)
        self.contracts[party] = Terms(s, bound, lead, constant)

    def withdraw(self, party):
        self.check_withdraw(party)
        if self.contracts[party].bound:
            self.scheduler.withdraw(party)
        self.behind.withdraw(party)
        del self.contracts[party]

    def enter(self, data, arrival):
        party, label, eligible = self.check_enter(data, arrival)
        if self.contracts[party].bound == 0:
            self.behind.enter(data, arrival)
        elif eligible == self.slot:
            self.scheduler.put(party, label)
        else:
            self.wait(party, label, eligible)

    def tick(self, deliveries, sends):
        if self.slot > LAST:
            raise self.fault(17)
        self.behind.tick(deliveries, sends)
        for party, label in self.waiting.pop(self.slot, {}).items():
            self.scheduler.put(party, label)
        served = self.scheduler.serve()
        if served is not None:
            party, label, _, due = served
            sends[self.number] = (party, due - self.slot, label)
            self.behind.enter(write_header(party, due - self.slot, label), self.slot + 1 + self.link)
        self.slot += 1

    def skip_to(self, slot):
        self.scheduler.slot = slot
        self.slot = slot
        self.behind.skip_to(slot)


def fresh_path(hops):
    """The front hop of a fresh path; hops: kind and link of each, from the front."""
    first = End()
    for number, (kind, link) in reversed(list(enumerate(hops))):
        first = Hop(number, kind, link, first)
    return first


# ---------------------------------------------------------------- the four calls

class Front:
    """A path with its four calls. A booking is a set of parties."""

    def __init__(self, hops):
        """hops: kind and link of each, from the front."""
        self.hops = len(hops)
        self.first = fresh_path(hops)
        self.last_entry = {}

    @property
    def slot(self):
        return self.first.slot

    def empty(self):
        return not self.first.cells()

    def constant(self, party):
        return self.first.contracts[party].constant

    def open(self, booking, party, s, bounds):
        if party >= PARTIES:
            raise Fault(1, PATH, party)
        if party in self.first.contracts or party in booking:
            raise Fault(2, PATH, party)
        if not 1 <= s <= 1024:
            raise Fault(3, PATH, party)
        bad = first_bad_bound(bounds, self.hops)
        if bad is not None:
            raise Fault(4, PATH, party, bad)
        if not any(bounds):
            raise Fault(5, PATH, party)
        if not self.empty():
            raise Fault(6, PATH, party)
        self.first.grant(party, s, bounds[:self.hops], 1)
        booking.add(party)

    def offer(self, booking, party, label):
        if party not in booking or party not in self.first.contracts:
            raise Fault(13, PATH, party)
        last = self.last_entry.get(party)
        if last is not None and self.slot < last + self.first.contracts[party].s:
            raise Fault(14, PATH, party)
        delivery = self.slot + self.constant(party)
        if delivery > LAST:
            raise Fault(15, PATH, party)
        self.first.enter(write_header(party, 0, label), self.slot)
        self.last_entry[party] = self.slot
        return delivery

    def tick(self):
        """The delivery table (label or None by party) and the send table
        ((party, ahead, label) or None by hop). Tables are made here, so 16 cannot arise."""
        if self.slot > LAST:
            raise Fault(17, PATH)
        deliveries, sends = [None] * PARTIES, [None] * self.hops
        self.first.tick(deliveries, sends)
        return deliveries, sends

    def close(self, booking, party):
        if party not in booking or party not in self.first.contracts:
            raise Fault(13, PATH, party)
        if any(p == party for p, _ in self.first.cells()):
            raise Fault(18, PATH, party)
        self.first.withdraw(party)
        self.last_entry.pop(party, None)
        booking.remove(party)

    def skip_to(self, slot):
        """What ticks up to this slot do to a path without cells: nothing else."""
        assert self.empty() and self.slot <= slot
        self.first.skip_to(slot)


# ---------------------------------------------------------------- plan and trace

NUMBER = re.compile(rb'0|[1-9][0-9]{0,9}')


class Plan:
    def __init__(self):
        self.hops = []          # (kind, link)
        self.parties = {}       # number: (spacing, bounds), in plan order

    def constant(self, party):
        return sum(d + g for d, (_, g) in zip(self.parties[party][1], self.hops) if d)


def lines_of(text, layer):
    if len(text) > TEXT_MAX or (text and text[-1:] != b'\n'):
        raise Fault(23, layer)
    return [line.split(b'\t') for line in text.split(b'\n')[:-1]]


def numbers(fields, layer, line):
    if not all(NUMBER.fullmatch(f) for f in fields):
        raise Fault(24, layer, line=line)
    return [int(f) for f in fields]


def in_range(values, limits, layer, line):
    if any(v > limit for v, limit in zip(values, limits)):
        raise Fault(25, layer, line=line)


def read_plan(text):
    if not text:
        raise Fault(23, PLAN)
    plan = Plan()
    lines = lines_of(text, PLAN)
    for at, fields in enumerate(lines, 1):
        if fields[0] == b'HOP' and len(fields) == 3 and fields[1] in (b'EDF', b'SP', b'TABLE'):
            values = numbers(fields[2:], PLAN, at)
            in_range(values, [LINK_MAX], PLAN, at)
            if plan.parties or len(plan.hops) == HOPS:
                raise Fault(26, PLAN, line=at)
            plan.hops.append((fields[1].decode(), values[0]))
        elif fields[0] == b'PARTY' and len(fields) == 3 + len(plan.hops):
            values = numbers(fields[1:], PLAN, at)
            in_range(values, [PARTIES - 1] + [TERM_MAX] * (1 + len(plan.hops)), PLAN, at)
            if values[0] in plan.parties:
                raise Fault(26, PLAN, line=at)
            plan.parties[values[0]] = (values[1], values[2:])
        else:
            raise Fault(24, PLAN, line=at)
    if not plan.hops or not plan.parties:
        raise Fault(26, PLAN, line=len(lines) + 1)
    return plan


def read_trace(text, plan):
    """The lines as (party, slot, label)."""
    trace, latest = [], {}
    for at, fields in enumerate(lines_of(text, TRACE), 1):
        if len(fields) != 3:
            raise Fault(24, TRACE, line=at)
        party, slot, label = values = numbers(fields, TRACE, at)
        in_range(values, [PARTIES - 1, LAST, LABEL_MAX], TRACE, at)
        if party not in plan.parties or slot < latest.get(party, 0):
            raise Fault(26, TRACE, line=at)
        latest[party] = slot
        trace.append((party, slot, label))
    return trace


def check(plan_text, trace_text):
    """What the readers make of a plan and a trace, or their first fault."""
    try:
        plan = read_plan(plan_text)
        trace = read_trace(trace_text, plan)
    except Fault as fault:
        return fault.text()
    out = [text_line('HOP', k, kind, link) for k, (kind, link) in enumerate(plan.hops)]
    out += [text_line('PARTY', p, plan.constant(p)) for p in plan.parties]
    out += [text_line('LINE', *line) for line in trace]
    return b''.join(out)


# ---------------------------------------------------------------- the replay

def run(plan, trace):
    """Runs the trace on a path; the lines of each party's record, whole."""
    path, booking = Front(plan.hops), set()
    records = {}
    for party, (s, bounds) in plan.parties.items():
        try:
            path.open(booking, party, s, bounds)
            records[party] = [text_line('PARTY', party, 'C', path.constant(party))]
        except Fault as fault:
            records[party] = [text_line('PARTY', party, 'NO', fault.cause, fault.hop)]
    todo = [line for line in trace if line[0] in booking]
    todo.sort(key=lambda line: (line[1], line[0]))      # keeps the order of lines among equals
    at = 0
    while at < len(todo) or not path.empty():
        if path.empty():
            path.skip_to(todo[at][1])
        while at < len(todo) and todo[at][1] == path.slot:
            party, slot, label = todo[at]
            try:
                path.offer(booking, party, label)
            except Fault as fault:
                records[party].append(text_line('NOT', slot, label, fault.cause))
            at += 1
        slot = path.slot
        for party, label in enumerate(path.tick()[0]):
            if label is not None:
                records[party].append(text_line('GOT', slot, label))
    for party in list(booking):
        path.close(booking, party)
    return records


def fitted(lines, size):
    """A record in a buffer: whole lines up to the first that does not fit, and its fault if any."""
    fill = b''
    for number, line in enumerate(lines, 1):
        if len(fill) + len(line) > size:
            return fill, Fault(27, RECORD, line=number)
        fill += line
    return fill, None


def replay(plan_text, trace_text, size=RECORD_SIZE):
    """What the program prints."""
    try:
        plan = read_plan(plan_text)
        trace = read_trace(trace_text, plan)
    except Fault as fault:
        return fault.text()
    out = b''
    for lines in run(plan, trace).values():
        record, fault = fitted(lines, size)
        if fault:
            return out + fault.text()
        out += record
    return out


# ---------------------------------------------------------------- scripts for one scheduler

def obey(scheduler, word, args):
    if word == 'GRANT':
        scheduler.grant(*map(int, args))
    elif word == 'WITHDRAW':
        scheduler.withdraw(int(args[0]))
    elif word == 'PUT':
        scheduler.put(*map(int, args))
    elif word == 'SERVE':
        served = scheduler.serve()
        return 'NONE' if served is None else 'CELL %d %d %d %d' % served
    elif word == 'IDLE':
        for _ in range(int(args[0])):
            if scheduler.serve() is not None:
                raise SystemExit('IDLE served a cell')
    elif word == 'FLOW':
        party, accepted, served = int(args[0]), 0, 0
        for label in range(int(args[1])):
            try:
                scheduler.put(party, label)
                accepted += 1
            except Fault:
                pass
            served += scheduler.serve() is not None
        return 'OK %d %d' % (accepted, served)
    elif word == 'TURNS':
        turns = [k for k, o in enumerate(scheduler.owner) if o == int(args[0])]
        return '%d %d' % (TURNS // len(turns), turns[0]) if turns else 'NONE'
    else:
        raise SystemExit('unknown command: ' + word)
    return 'OK'


def makes(script):
    out, scheduler = [], None
    for line in script.splitlines():
        words = line.split()
        if not words or words[0].startswith('#'):
            continue
        if words[0] == 'MAKE':
            scheduler = make(words[1])
            answer = 'OK'
        else:
            try:
                answer = obey(scheduler, words[0], words[1:])
            except Fault as fault:
                answer = 'NO %d' % fault.cause
        out.append('\t'.join(words + answer.split()) + '\n')
    return ''.join(out).encode()


# ---------------------------------------------------------------- scripts for one path

class Watched:
    """A cell as the rules say that it travels: its hops with its eligible and due slot there, then the end."""

    def __init__(self, party, label, eligible, bounds, links):
        self.party, self.label = party, label
        self.stops = []         # hop, eligible slot, due slot
        for hop, (d, g) in enumerate(zip(bounds, links)):
            if d:
                self.stops.append((hop, eligible, eligible + d - 1))
                eligible += d + g
        self.leaves = eligible


class Watch:
    """Follows the cells of a path by their entries alone, and stops the run at the first that a hop
    sends outside its eligible to due slots or with another ahead, that is delivered in another slot
    than the entering eligible one plus the path constant, that is lost, or that never entered."""

    def __init__(self, links):
        self.links = [min(g, LINK_MAX) for g in links]
        self.bounds = {}        # party: bounds
        self.cells = []

    def entered(self, data, arrival):
        party, ahead, label = read_header(data)
        self.cells.append(Watched(party, label, arrival + ahead, self.bounds[party], self.links))

    def sent(self, slot, hop, party, ahead, label):
        found = [c for c in self.cells if c.party == party and c.stops and c.stops[0][0] == hop
                 and c.stops[0][2] == slot + ahead]
        assert len(found) == 1 and found[0].label == label, 'no such cell is at the hop'
        assert found[0].stops[0][1] <= slot <= found[0].stops[0][2], 'sent outside its slots'
        found[0].stops.pop(0)

    def delivered(self, slot, party, label):
        found = [c for c in self.cells if c.party == party and not c.stops and c.leaves == slot]
        assert len(found) == 1 and found[0].label == label, 'no such cell is due at the end'
        self.cells.remove(found[0])

    def ended(self, slot):
        for c in self.cells:
            assert slot < (c.stops[0][2] if c.stops else c.leaves), 'a cell is late'

    def holds(self, party):
        return any(c.party == party for c in self.cells)


def picture(path):
    """All that a path from here on stands for, to compare before and after a refusal."""
    seen = [path.slot, {p: vars(c).copy() for p, c in path.contracts.items()},
            {e: dict(day) for e, day in path.waiting.items()}]
    if path.number < HOPS:
        made = path.scheduler
        seen += [made.slot, {p: vars(c).copy() for p, c in made.contracts.items()}, dict(made.held),
                 list(getattr(made, 'owner', [])), picture(path.behind)]
    return seen


def check_state(path):
    """What holds of every path between two calls."""
    parties = set(path.contracts)
    while path.number < HOPS:
        assert path.contracts.keys() == parties and path.slot == path.behind.slot == path.scheduler.slot
        assert path.scheduler.contracts.keys() == {p for p, c in path.contracts.items() if c.bound}
        assert len(path.waiting_cells()) <= CALENDAR and len(path.scheduler.held) <= HELD_MAX
        path = path.behind
    assert path.contracts.keys() == parties and len(path.waiting_cells()) <= CALENDAR


class PathRun:
    """One path driven by commands; each answers with its output lines."""

    def __init__(self):
        self.hops = []          # kind, link

    def renew(self):
        self.path = fresh_path(self.hops)
        self.watch = Watch([g for _, g in self.hops])

    def call(self, word, args):
        """A call that can be refused."""
        if word == 'GRANT':
            party, s, lead, *bounds = args
            assert len(bounds) == HOPS, 'GRANT takes eight bounds'
            self.path.grant(party, s, bounds, lead)
            self.watch.bounds[party] = bounds
        elif word == 'WITHDRAW':
            self.path.withdraw(*args)
            del self.watch.bounds[args[0]]
        elif word == 'ENTER':
            data, arrival = bytes(args[:-1]), args[-1]
            self.path.enter(data, arrival)
            self.watch.entered(data, arrival)
        else:
            raise SystemExit('unknown command: ' + word)

    def tick(self):
        slot, deliveries, sends = self.path.slot, [None] * PARTIES, [None] * HOPS
        self.path.tick(deliveries, sends)
        out = []
        for party, label in enumerate(deliveries):
            if label is not None:
                self.watch.delivered(slot, party, label)
                out.append(['GOT', slot, party, label])
        for hop, send in reversed(list(enumerate(sends))):
            if send is not None:
                self.watch.sent(slot, hop, *send)
                out.insert(0, ['SENT', slot, hop, *send])
        self.watch.ended(slot)
        return out

    def ticks(self, n):
        """So many ticks; while the path has no cell they are one step, and write nothing."""
        out = []
        while n:
            step = 1 if self.path.cells() else min(n, LAST + 1 - self.path.slot)
            if step > 1:
                self.path.skip_to(self.path.slot + step)
            else:
                before = picture(self.path)
                try:
                    out += self.tick()
                except Fault as fault:
                    assert picture(self.path) == before, 'a refusal changed the path'
                    return out + [refusal(fault)]
                step = 1
            n -= step
        return out

    def obey(self, words):
        """The lines that a command prints."""
        word, args = words[0], words[1:]
        if word == 'PATH':
            self.hops = [(kind, int(link)) for kind, link in (w.split(':') for w in args)]
            self.renew()
            return [words + ['OK']]
        args = [int(w) for w in args]
        if word == 'RESET':
            self.renew()
            return [words + ['OK']]
        if word == 'HOLDS':
            holds = any(p == args[0] for p, _ in self.path.cells())
            assert holds == self.watch.holds(args[0]), 'a cell is lost or made up'
            return [words + ['YES' if holds else 'NO']]
        if word in ('TICK', 'RUN'):
            out = [words] + self.ticks(*args or [1])
            check_state(self.path)
            return out
        before = picture(self.path)
        try:
            self.call(word, args)
        except Fault as fault:
            assert picture(self.path) == before, 'a refusal changed the path'
            return [words + refusal(fault)]
        check_state(self.path)
        return [words + ['OK']]


def refusal(fault):
    return ['NO', fault.cause, fault.layer, fault.party, fault.hop]


def paths(script):
    run, out = PathRun(), []
    for line in script.splitlines():
        words = line.split()
        if words and not words[0].startswith('#'):
            out += [text_line(*fields) for fields in run.obey(words)]
    return b''.join(out)


def file_bytes(name):
    with open(name, 'rb') as f:
        return f.read()


def main(args):
    if len(args) == 3 and args[0] == 'check':
        out = check(file_bytes(args[1]), file_bytes(args[2]))
    elif len(args) == 3 and args[0] == 'replay':
        out = replay(file_bytes(args[1]), file_bytes(args[2]))
    elif len(args) == 2 and args[0] == 'makes':
        out = makes(file_bytes(args[1]).decode())
    elif len(args) == 2 and args[0] == 'paths':
        out = paths(file_bytes(args[1]).decode())
    else:
        sys.exit(__doc__)
    sys.stdout.buffer.write(out)


if __name__ == '__main__':
    main(sys.argv[1:])
