#!/usr/bin/env python3
"""Writes the script that drives the makes, and what each command answers.

  make_scripts.py FOLDER    writes FOLDER/script.txt and FOLDER/stdout; two runs write the same bytes
"""

import os
import random
import sys

import regulated

# By hand: the worked examples, each refusal in its order, ties, and the last slot.
BY_HAND = '''
# EDF: no busy period
MAKE 0
GRANT 0 2 2
GRANT 1 2 2
GRANT 2 2 2
# EDF: too much due within 5 slots, though every bound is below 5
MAKE 0
GRANT 0 2 1
GRANT 1 3 2
GRANT 2 6 4
# EDF takes three
MAKE 0
GRANT 0 4 3
GRANT 1 4 3
GRANT 2 4 3
# SP takes two of them
MAKE 1
GRANT 0 4 3
GRANT 1 4 3
GRANT 2 4 3
# TABLE: periods 4 and 8, then no turn for period 1
MAKE 2
GRANT 0 5 6
GRANT 1 8 9
GRANT 2 1 1
PUT 0 1
PUT 1 2
SERVE
SERVE
SERVE
# the order of refusals, at each make
MAKE {k}
GRANT 16 0 0
GRANT 255 5 5
GRANT 0 0 0
GRANT 0 1025 129
GRANT 0 1 0
GRANT 0 1024 129
GRANT 0 4 4
GRANT 0 0 0
WITHDRAW 1
WITHDRAW 16
PUT 1 5
PUT 16 5
PUT 0 4294967295
PUT 0 6
GRANT 1 4 4
GRANT 0 4 4
GRANT 1 0 4
WITHDRAW 0
SERVE
SERVE
PUT 0 7
SERVE
SERVE
PUT 0 8
SERVE
SERVE
SERVE
SERVE
WITHDRAW 0
PUT 0 9
GRANT 0 1 1
PUT 0 10
SERVE
# the last slot
MAKE {k}
GRANT 3 1024 128
IDLE 16777215
PUT 3 77
SERVE
SERVE
SERVE
PUT 3 78
WITHDRAW 3
# a steady flow
MAKE {k}
GRANT 3 2 5
FLOW 3 300000
GRANT 4 7 9
FLOW 4 100001
# too many places
MAKE {k}
GRANT 0 1 100
GRANT 1 1 29
GRANT 1 1 28
# equal due slots: the lowest party first
MAKE 0
GRANT 5 10 6
GRANT 2 10 6
GRANT 9 10 4
PUT 9 1
PUT 5 2
PUT 2 3
SERVE
SERVE
SERVE
SERVE
# SP: the level first, then the eligible slot, then the party
MAKE 1
GRANT 7 20 16
GRANT 4 20 31
GRANT 3 20 8
GRANT 1 20 15
PUT 7 1
PUT 4 2
SERVE
PUT 3 3
PUT 1 4
SERVE
SERVE
SERVE
SERVE
'''


def by_hand():
    blocks, out = BY_HAND.split('MAKE '), []
    for i, block in enumerate(blocks):
        if block.startswith('{k}'):
            for kind in '013':
                out.append('MAKE ' + block.replace('{k}', kind))
        else:
            out.append(('MAKE ' if i else '') + block)
    return ''.join(out)


def terms(rng, kind):
    if kind == 1:
        return rng.choice([1, 2, 3, 4, 7, 8, 16, 40, 100]), rng.choice([1, 2, 3, 5, 8, 12, 31, 64, 128])
    return rng.randint(1, 12), rng.randint(1, 16)


def at_random(rng, kind):
    out = ['MAKE %d' % kind]
    parties = rng.sample(range(16), rng.randint(1, 6))
    for party in parties:
        out.append('GRANT %d %d %d' % ((party,) + terms(rng, kind)))
    label = 0
    for _ in range(rng.randint(10, 50)):
        for party in parties:
            if rng.random() < 0.5:
                label += 1
                out.append('PUT %d %d' % (party, label))
        out.append('SERVE')
        if rng.random() < 0.05:
            out.append('WITHDRAW %d' % rng.choice(parties))
        if rng.random() < 0.05:
            out.append('GRANT %d %d %d' % ((rng.choice(parties),) + terms(rng, kind)))
    return '\n'.join(out) + '\n'


def script():
    rng = random.Random(1)
    return by_hand() + ''.join(at_random(rng, i % 3) for i in range(24))


def main(folder):
    os.makedirs(folder, exist_ok=True)
    text = script()
    lines = [l for l in text.split('\n') if l and not l.startswith('#')]
    text = '\n'.join(lines) + '\n'
    with open(os.path.join(folder, 'script.txt'), 'w') as f:
        f.write(text)
    with open(os.path.join(folder, 'stdout'), 'wb') as f:
        f.write(regulated.makes(text))


if __name__ == '__main__':
    if len(sys.argv) != 2:
        sys.exit(__doc__)
    main(sys.argv[1])
