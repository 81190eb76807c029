#!/usr/bin/env python3
"""Writes the script that drives paths of one to three hops, and what each command answers.

  make_paths.py FOLDER    writes FOLDER/script.txt and FOLDER/stdout; two runs write the same bytes
"""

import os
import random
import sys

import regulated

# By hand. Two words are written out by this program: GRANT takes up to eight bounds, zeros follow,
# and CELL party ahead label arrival is an ENTER with that header. A line with {k} stands in a block
# that is written once for each kind.

WORKED = '''
# the worked example: a cell offered in slot t enters with ahead 0 and arrival t, lead 1
PATH 0:3 1:0
GRANT 2 5 1 4 6
GRANT 1 5 1 4 0
RUN 10
CELL 2 0 700 10
CELL 1 0 9 10
RUN 4
CELL 2 0 701 14
TICK
CELL 2 0 702 15
HOLDS 1
HOLDS 2
RUN 2
HOLDS 1
TICK
HOLDS 1
RUN 5
HOLDS 2
TICK
RUN 4
HOLDS 2
TICK
HOLDS 2
WITHDRAW 2
WITHDRAW 1
'''

GRANTS = '''
# the order of refusals of a grant
PATH {k}:2 {k}:5 {k}:1
GRANT 16 0 0 129
GRANT 16 5 1 4 4 4
GRANT 255 5 1 4 4 4
GRANT 0 0 0 129
GRANT 0 0 1 4
GRANT 0 1025 192 4
GRANT 0 4294967295 1 4
# a bad lead is hop 0
GRANT 0 5 0 4 4 4
GRANT 0 5 192 4 4 4
GRANT 0 5 4294967295 4 4 4
GRANT 0 5 0 0 0 0
GRANT 0 5 0 4 129 4
GRANT 0 5 192 4 4 4 1
# a bad bound, and the lowest of several
GRANT 0 5 1 129 4 4
GRANT 0 5 1 4 129 4
GRANT 0 5 1 4 4 129
GRANT 0 5 1 0 0 130
GRANT 0 5 1 4 4 4294967295
GRANT 0 5 1 4 129 129 129
GRANT 0 5 1 4 4 300 1
GRANT 0 5 1 129 200 129 1 1 1 1 1
# a bound past the last hop
GRANT 0 5 1 4 4 4 1
GRANT 0 5 1 4 4 4 128 0 1
GRANT 0 5 1 4 4 4 129
GRANT 0 5 1 4 4 4 0 9 9
GRANT 0 5 1 4 4 4 0 0 0 0 1
GRANT 0 5 1 0 0 0 0 0 0 1
# the limits are good
GRANT 0 5 191 128 128 128
GRANT 1 1024 1 128 128 128
GRANT 0 0 0 129
GRANT 0 5 0 129
GRANT 0 5 1 4 4 4
GRANT 16 5 1 4 4 4
WITHDRAW 1
WITHDRAW 1
WITHDRAW 0
GRANT 0 5 1 4 4 4
GRANT 1 9 1 7 0 7
# a cell on the path: 1 to 4 come first, 7 to 12 later; withdrawing others is allowed
CELL 0 0 5 0
HOLDS 0
HOLDS 1
HOLDS 16
HOLDS 255
GRANT 16 5 1 4 4 4
GRANT 0 5 1 4 4 4
GRANT 2 0 1 4 4 4
GRANT 2 5 0 4 4 4
GRANT 2 5 1 4 4 4 4
GRANT 2 5 1 4 4 4
GRANT 2 1 191 1 1 1
GRANT 2 5 1
WITHDRAW 0
WITHDRAW 1
WITHDRAW 1
WITHDRAW 2
WITHDRAW 15
WITHDRAW 16
WITHDRAW 255
CELL 1 0 5 0
RUN 19
WITHDRAW 0
TICK
WITHDRAW 0
TICK
HOLDS 0
GRANT 2 5 1 4 4 4
WITHDRAW 0
WITHDRAW 0
CELL 0 0 6 21
CELL 2 0 7 21
RUN 25
'''

CALENDARS = '''
# 7 at the front hop: a large lead counts as many cells as it can hold
PATH 0:0
GRANT 0 1 191 1
GRANT 1 95 191 1
GRANT 1 191 191 1
GRANT 1 1 1 1
WITHDRAW 0
GRANT 1 95 191 1
GRANT 0 1 190 1
GRANT 0 2 191 1
# 192 is not too many; one more is, and 7 comes before what the scheduler says
PATH 1:0
GRANT 0 2 191 2
GRANT 1 2 191 2
GRANT 2 2 1 2
GRANT 3 1024 1 128
GRANT 3 1024 1 0
# 7 at hop 1, with a grant at hop 0 that is taken back
PATH 0:63 0:0
GRANT 0 1 1 128 1
GRANT 1 1 1 1 1
GRANT 1 5 2 0 1
GRANT 1 1 2 0 1
GRANT 1 1 1 0 1
GRANT 2 1024 1 0 1
WITHDRAW 0
GRANT 0 2 1 128 2
GRANT 1 2 191 0 2
GRANT 2 3 1 0 2
GRANT 2 20 1 20 20
GRANT 2 20 1 20 0
WITHDRAW 2
GRANT 2 2 1 2 0
# 7 at hop 2 after two grants that are taken back: hops 0 and 1 take a full contract later
PATH 0:0 2:63 1:0
GRANT 0 1 1 0 128 1
GRANT 1 1 1 1 0 1
GRANT 1 1 2 0 0 1
GRANT 1 2 1 2 0 2
GRANT 1 1 1 1 0 0
WITHDRAW 0
WITHDRAW 1
GRANT 0 2 191 0 0 2
GRANT 1 2 191 0 0 2
GRANT 2 1 1 1 1 1
GRANT 2 64 1 1 1 1
GRANT 3 1 1 1 0 0
GRANT 4 1 1 0 1 0
GRANT 2 1024 1 0 0 1
# 7 at the end, number 8, on paths of one, two and three hops
PATH 0:63
GRANT 0 1 1 128
GRANT 1 1 1 0
GRANT 2 1024 1 0
GRANT 2 1024 191 0
WITHDRAW 1
GRANT 2 1024 191 0
GRANT 1 1 1
PATH 1:0 0:63
GRANT 0 1 1 0 128
GRANT 1 2 1 2 0
GRANT 1 2 1 2 1
GRANT 2 2 1 2 1
GRANT 2 2 1 2 0
GRANT 3 1 1
GRANT 2 1 1 1 0
GRANT 2 2 1 1 0
WITHDRAW 1
GRANT 2 1 1 1 0
GRANT 3 7 1
PATH 2:63 2:0 0:0
GRANT 0 1 1 128 0 0
GRANT 1 1 1 0 1 0
GRANT 2 1 1 0 0 1
GRANT 2 2 1 0 0 2
GRANT 3 9 191
WITHDRAW 1
GRANT 3 1 1 0 2 2
GRANT 3 1 2 0 1 1
GRANT 4 1 1 0 0 1
# the lead of an uncrossed hop is handed on, its link is not counted
PATH 0:63 0:63
GRANT 0 1 1 1 0
GRANT 1 1 1 0 0
GRANT 2 1 127 0 0
GRANT 3 1 128 0 0
GRANT 3 1 1 0 1
GRANT 3 1 1 0 0
'''

# After each refusal behind, a contract that fills the hops in front shows that nothing was left
# there, and the refused party itself can be granted.
BEHIND = '''
# 8 at hop 1
PATH {k}:0 0:0
GRANT 0 2 1 0 128
GRANT 1 2 1 0 128
GRANT 2 5 1 4 4
GRANT 3 1 1 1 0
WITHDRAW 3
GRANT 2 1 1 1 0
PATH {k}:0 1:7
GRANT 0 2 1 0 128
GRANT 1 2 1 0 127
GRANT 2 1 1 1 1
GRANT 3 1 1 1 0
# 8 at hop 2 and at hop 0
PATH 0:0 {k}:0 1:7
GRANT 0 2 1 128 0 128
GRANT 1 2 1 0 0 128
GRANT 2 9 1 9 9 1
GRANT 3 2 1 65 1 0
GRANT 3 2 1 128 1 0
GRANT 4 1 1 0 1 0
GRANT 4 2 1 0 2 0
# 9 at hop 1: a scheduler of EDF is full; at hop 2 the same
PATH {k}:1 0:1
GRANT 0 2 1 0 2
GRANT 1 2 1 0 2
GRANT 2 2 1 2 2
GRANT 2 2 1 3 2
GRANT 3 1 1 1 0
WITHDRAW 0
WITHDRAW 3
GRANT 2 2 1 2 2
PATH {k}:1 {k}:0 0:1
GRANT 0 1 1 0 0 5
GRANT 2 3 1 3 3 3
GRANT 3 1 1 1 1 0
# 10 at hop 1 and at hop 2
PATH {k}:3 0:1
GRANT 0 2 1 0 1
GRANT 1 3 1 0 2
GRANT 2 6 1 4 4
GRANT 2 1 1 1 0
PATH {k}:3 {k}:2 0:1
GRANT 0 2 1 0 0 1
GRANT 1 3 1 0 0 2
GRANT 2 6 1 1 4 4
GRANT 2 6 1 1 4 5
WITHDRAW 2
GRANT 2 1 1 1 1 0
# 11 at hop 1 and at hop 2
PATH {k}:0 1:0
GRANT 0 4 1 0 3
GRANT 1 4 1 0 3
GRANT 2 4 1 3 3
GRANT 3 1 1 1 0
WITHDRAW 3
GRANT 2 4 1 3 4
PATH {k}:63 {k}:63 1:63
GRANT 0 1 1 0 0 1
GRANT 2 1024 1 128 128 128
GRANT 2 1024 1 128 128 0
WITHDRAW 2
GRANT 3 1 1 1 1 0
# 12 at hop 1 and at hop 2
PATH {k}:0 2:0
GRANT 0 5 1 0 6
GRANT 1 8 1 0 9
GRANT 2 1 1 1 1
GRANT 2 1 1 1 0
PATH {k}:2 {k}:2 2:2
GRANT 0 2 1 0 0 2
GRANT 1 2 1 0 0 2
GRANT 2 1024 1 128 128 128
GRANT 3 1 1 1 1 0
WITHDRAW 3
WITHDRAW 1
GRANT 2 1 1 1 1 1
GRANT 2 2 1 1 1 2
# the front hop refuses before those behind; then the next one does
PATH {k}:0 {k}:0 {k}:0
GRANT 0 2 1 2 0 0
GRANT 1 2 1 2 2 0
GRANT 2 2 1 0 2 2
GRANT 3 2 1 2 2 2
WITHDRAW 0
GRANT 3 2 1 2 2 2
WITHDRAW 2
GRANT 3 2 1 2 2 2
GRANT 4 2 1 0 0 2
GRANT 5 2 1 0 0 2
'''

ENTERS = '''
# the order of refusals of an enter
PATH {k}:1 {k}:0
GRANT 3 6 4 3 2
ENTER 0
ENTER 3 0
ENTER 3 0 0 0 0 0
ENTER 3 0 0 0 0 1 7 0
ENTER 16 128 0 0 0
ENTER 3 0 0 0 0 1 2 3 4 5 6 7 8 9 10 11 0
CELL 16 128 0 0
CELL 255 0 1 0
CELL 3 128 1 0
CELL 15 255 1 0
CELL 15 127 1 0
CELL 4 127 1 4294967295
CELL 3 4 1 0
CELL 3 0 1 4
CELL 3 127 1 0
CELL 3 0 1 4294967295
CELL 3 127 1 4294967295
CELL 3 127 1 4294967169
CELL 3 2 4294967295 1
CELL 3 3 5 1
CELL 3 0 6 2
CELL 3 0 6 0
HOLDS 3
TICK
CELL 3 0 1 0
CELL 3 1 1 0
CELL 3 0 1 5
TICK
RUN 5
CELL 3 0 7 6
CELL 3 7 7 0
CELL 3 0 7 11
RUN 3
CELL 3 2 8 10
CELL 3 0 8 15
WITHDRAW 3
RUN 14
HOLDS 3
WITHDRAW 3
WITHDRAW 3
CELL 3 0 9 24
GRANT 3 6 1 3 2
CELL 3 0 9 25
CELL 3 0 9 23
CELL 3 9 10 15
CELL 3 0 11 24
CELL 3 0 11 25
RUN 7
# entries in any order that are far enough apart, and those that are not
PATH {k}:0 {k}:2
GRANT 0 10 50 2 3
GRANT 1 5 50 4 0
CELL 0 0 1 30
CELL 0 20 2 0
CELL 0 0 3 29
CELL 0 0 3 31
CELL 0 0 3 21
CELL 0 0 3 39
CELL 0 0 3 30
CELL 0 0 3 25
CELL 0 0 4 40
CELL 0 0 5 50
CELL 0 0 5 49
CELL 0 0 5 10
CELL 0 0 6 9
CELL 0 0 6 1
CELL 0 0 6 0
CELL 1 0 11 49
CELL 1 40 12 3
CELL 1 41 12 4
CELL 1 0 13 42
CELL 1 0 14 37
CELL 1 0 15 0
CELL 1 0 16 6
RUN 8
CELL 1 0 17 10
CELL 1 0 18 11
CELL 0 57 19 1
CELL 0 7 19 50
CELL 0 0 20 58
RUN 20
CELL 1 0 21 32
CELL 1 0 21 29
CELL 1 0 21 28
RUN 60
'''

LAST_DELIVERY = '''
# too soon after the last delivery: the path constant is below the spacing
PATH {k}:0
GRANT 0 10 1 2
CELL 0 0 1 0
RUN 2
HOLDS 0
CELL 0 0 2 2
TICK
HOLDS 0
CELL 0 0 2 3
RUN 6
CELL 0 0 2 9
TICK
CELL 0 0 2 10
RUN 3
WITHDRAW 0
GRANT 0 10 20 2
CELL 0 0 3 13
RUN 4
CELL 0 0 4 22
CELL 0 0 4 24
CELL 0 0 5 23
CELL 0 0 6 33
RUN 20
HOLDS 0
# the same without any hop
PATH {k}:5 {k}:9
GRANT 0 4 1
CELL 0 0 1 0
CELL 0 0 2 0
TICK
CELL 0 0 2 1
TICK
CELL 0 0 2 2
TICK
CELL 0 0 2 3
TICK
CELL 0 0 2 4
TICK
WITHDRAW 0
GRANT 0 4 1
CELL 0 0 3 5
TICK
'''

STANDING = '''
# a cell is on the path wherever it stands: waiting or held, at each hop and at the end
PATH 0:1 1:1 2:2
GRANT 0 6 20 2 3 4
CELL 0 3 77 2
{walk}
WITHDRAW 0
GRANT 1 6 1 2 3 4
'''

WALK = '''GRANT 1 6 1 2 3 4
WITHDRAW 0
HOLDS 0
TICK
'''

UNCROSSED = '''
# hops that are not crossed: front, middle, last, two of them, all
PATH {k}:3 {k}:5 {k}:7
GRANT 0 40 3 0 4 4
GRANT 1 40 3 4 0 4
GRANT 2 40 3 4 4 0
GRANT 3 40 3 0 0 6
GRANT 4 40 3 0 6 0
GRANT 5 40 3 6 0 0
GRANT 6 40 3 0 0 0
GRANT 7 40 3 9 9 9
CELL 7 2 107 0
CELL 6 0 106 0
CELL 5 1 105 1
CELL 4 0 104 1
CELL 3 0 103 0
CELL 2 1 102 1
CELL 1 1 101 0
CELL 0 0 100 0
CELL 6 0 206 3
CELL 3 2 203 1
RUN 41
CELL 6 0 306 43
CELL 3 2 303 38
CELL 0 1 300 40
CELL 5 0 305 41
CELL 5 0 305 43
RUN 45
'''

LINKS = '''
# a link above 63 counts as 63
PATH {k}:63
GRANT 0 200 1 1
CELL 0 0 1 0
RUN 64
HOLDS 0
TICK
HOLDS 0
PATH {k}:64
GRANT 0 200 1 1
CELL 0 0 1 0
RUN 64
HOLDS 0
TICK
HOLDS 0
PATH {k}:255 {k}:65
GRANT 0 200 1 128 128
GRANT 1 200 1 128 0
CELL 0 0 1 0
CELL 1 0 2 0
RUN 191
HOLDS 1
TICK
HOLDS 0
HOLDS 1
RUN 190
HOLDS 0
TICK
HOLDS 0
'''

SHORT = '''
# links of 0 and bounds of 1: a cell in every slot, sent by each hop with ahead 0, one hop a tick
PATH {k}:0 {k}:0 {k}:0
GRANT 0 1 1 1 1 1
CELL 0 0 1 0
TICK
CELL 0 0 2 1
TICK
CELL 0 0 3 2
CELL 0 0 3 2
TICK
CELL 0 0 4 3
TICK
TICK
CELL 0 0 5 5
RUN 4
# ahead 0 at the due slot, into a hop with a contract that has bound 1
PATH {k}:0 {k}:0
GRANT 0 4 1 2 1
GRANT 1 4 1 1 2
CELL 0 0 1 0
CELL 1 0 2 0
RUN 5
'''

END_OF_TIME = '''
# the end of time: only a tick is refused
PATH 0:2
GRANT 4 5 1 3
RUN 16777216
TICK
RUN 3
HOLDS 4
GRANT 1 4 9 2
GRANT 2 0 9 2
CELL 1 0 1 16777215
CELL 1 0 1 16777225
CELL 1 0 2 16777216
CELL 1 5 3 16777219
CELL 1 127 4 16777093
CELL 4 0 5 16777216
HOLDS 1
TICK
GRANT 2 5 1 3
WITHDRAW 1
RESET
HOLDS 1
WITHDRAW 1
GRANT 1 4 9 2
CELL 1 0 1 0
RUN 6
RUN 0
RESET
TICK
'''

RESETS = '''
# a reset path is fresh: slot 0, no contract, no cell, no last delivery
PATH {k}:1 {k}:2 {k}:0
GRANT 0 20 5 2 3 4
GRANT 1 1024 1 9 0 0
CELL 0 0 1 4
CELL 1 0 2 0
RUN 6
HOLDS 0
RESET
HOLDS 0
HOLDS 1
WITHDRAW 0
CELL 0 0 1 0
GRANT 0 1 1 1 1 1
CELL 0 0 1 6
CELL 0 0 3 0
RUN 6
HOLDS 0
RESET
GRANT 0 20 1 2 3 4
CELL 0 0 4 0
RUN 13
'''


def written_out(text):
    """Lines of a script, with GRANT and CELL written out and comments left away."""
    out = []
    for line in text.splitlines():
        words = line.split()
        if not words or words[0].startswith('#'):
            continue
        if words[0] == 'GRANT':
            words += ['0'] * (12 - len(words))
        elif words[0] == 'CELL':
            words = enter(*map(int, words[1:])).split()
        out.append(' '.join(words))
    return out


def enter(party, ahead, label, arrival):
    return 'ENTER %d %d %s %d' % (party, ahead, ' '.join(map(str, label.to_bytes(4, 'big'))), arrival)


def grant(party, s, lead, bounds):
    return 'GRANT %d %d %d %s' % (party, s, lead, ' '.join(map(str, bounds + [0] * (8 - len(bounds)))))


def each_kind(text):
    return ''.join(text.replace('{k}', kind) for kind in '012')


def full_calendars():
    """191 cells wait at the front hop and then at the end, where another party makes it 192."""
    text = 'PATH 0:63\nGRANT 0 1 191 128\nGRANT 1 1 1\nGRANT 2 1 1\n'
    text += ''.join('CELL 0 %d %d %d\n' % (min(e, 127), 1000 + e, e - min(e, 127)) for e in reversed(range(191)))
    text += 'CELL 0 127 1 64\nCELL 0 0 1 190\nRUN 190\nCELL 1 0 5 190\nRUN 2\nCELL 1 2 6 190\nRUN 3\nCELL 1 0 7 195\nRUN 187\n'
    return text


def busy(kind):
    """Sixteen parties, a cell of each every sixteen slots: every hop sends in every slot."""
    links = [0, 3, 1]
    text = 'PATH %s\n' % ' '.join('%d:%d' % (kind, g) for g in links)
    text += ''.join('GRANT %d 16 1 16 16 16\n' % p for p in range(16))
    text += 'GRANT 0 16 1 16 16 16\n'
    for turn in range(2):
        text += ''.join('CELL %d 0 %d %d\n' % (p, 100 * turn + p, 16 * turn) for p in reversed(range(16))) + 'RUN 16\n'
    return text + 'RUN 37\n'


def by_hand():
    text = WORKED + each_kind(GRANTS) + CALENDARS + each_kind(BEHIND + ENTERS + LAST_DELIVERY)
    text += STANDING.replace('{walk}', WALK * 19)
    text += each_kind(UNCROSSED + LINKS + SHORT + RESETS) + full_calendars()
    return written_out(text + ''.join(busy(kind) for kind in range(3)) + END_OF_TIME)


class Wanderer:
    """One random path. It drives the reference along, so that most entries are lawful."""

    def __init__(self, rng, hops, crossing):
        self.rng, self.crossing, self.out, self.label = rng, crossing, [], 0
        self.run = regulated.PathRun()
        self.do('PATH ' + ' '.join('%d:%d' % (rng.randrange(3), rng.choice([0, 0, 0, 1, 1, 2, 3, 5, 9, 63, 200]))
                                   for _ in range(hops)))

    def do(self, line):
        self.out.append(line)
        self.run.obey(line.split())

    def grants(self, count):
        rng = self.rng
        for party in rng.sample(range(16), count):
            s = rng.choice([1, 2, 3, 4, 5, 6, 8, 9, 12, 16])
            lead = rng.choice([1, 1, 1, 2, 5, 20, 60])
            bounds = [rng.randint(1, 20) if rng.random() < self.crossing else 0 for _ in self.run.hops]
            self.do(grant(party, s, lead, bounds))

    def entry(self, party, eligible):
        """A header whose arrival and ahead come to this eligible slot."""
        self.label += 1
        label = self.label if self.rng.random() < 0.9 else self.rng.randrange(1 << 32)
        ahead = min(self.rng.choice([0, 0, self.rng.randrange(128)]), eligible)
        return enter(party, ahead, label, eligible - ahead)

    def lawful(self, party):
        """The eligible slots with which a cell of the party would be accepted now."""
        path = self.run.path
        header = regulated.write_header(party, 0, 0)
        found = []
        for eligible in range(path.slot, path.slot + path.contracts[party].lead):
            try:
                path.check_enter(header, eligible)
                found.append(eligible)
            except regulated.Fault:
                pass
        return found

    def enters(self, eagerness):
        path, rng = self.run.path, self.rng
        for party in rng.sample(sorted(path.contracts), len(path.contracts)):
            slots = self.lawful(party)
            if slots and rng.random() < eagerness:
                self.do(self.entry(party, rng.choice([slots[0], slots[-1], rng.choice(slots)])))
            if rng.random() < 0.06:
                self.do(self.entry(party, path.slot + rng.randrange(path.contracts[party].lead + 2)))
        if rng.random() < 0.04:
            self.do(self.entry(rng.randrange(18), max(0, path.slot - rng.randrange(2))))

    def slots(self, count, eagerness):
        rng = self.rng
        for _ in range(count):
            self.enters(eagerness)
            self.do('TICK' if rng.random() < 0.8 else 'RUN %d' % rng.randint(1, 6))
            if rng.random() < 0.06:
                self.do('WITHDRAW %d' % rng.randrange(17))
            if rng.random() < 0.06:
                self.do('HOLDS %d' % rng.randrange(16))
            if rng.random() < 0.04:
                self.grants(1)

    def change(self):
        """Once the path is empty: some contracts go, others come."""
        path, rng = self.run.path, self.rng
        while path.cells():
            self.do('RUN %d' % rng.choice([10, 40, 100]))
        for party in rng.sample(sorted(path.contracts), len(path.contracts) // 2):
            self.do('WITHDRAW %d' % party)
        self.grants(3)


def at_random(rng, i):
    one = Wanderer(rng, 1 + i % 3, rng.choice([0.6, 0.85, 1]))
    one.grants(rng.randint(2, 7))
    one.slots(rng.randint(6, 12), rng.choice([0.2, 0.5, 1]))
    one.change()
    one.slots(rng.randint(4, 8), 0.6)
    if rng.random() < 0.4:
        one.do('RESET')
        one.grants(3)
        one.slots(4, 1)
    one.do('RUN %d' % rng.randint(5, 30))
    return one.out


def script():
    rng = random.Random(1)
    lines = by_hand()
    for i in range(48):
        lines += at_random(rng, i)
    return '\n'.join(lines) + '\n'


def main(folder):
    os.makedirs(folder, exist_ok=True)
    text = script()
    with open(os.path.join(folder, 'script.txt'), 'w') as f:
        f.write(text)
    with open(os.path.join(folder, 'stdout'), 'wb') as f:
        f.write(regulated.paths(text))


if __name__ == '__main__':
    if len(sys.argv) != 2:
        sys.exit(__doc__)
    main(sys.argv[1])
