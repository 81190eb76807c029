#!/usr/bin/env python3
"""Writes the table of plan and trace pairs that the readers are tested with.

  make_cases.py FOLDER

FOLDER gets one folder for each case with plan.tsv and trace.tsv; cases.txt, the names of the
cases, one a line, in order; and stdout, for each case a line `== NAME` and then what the
reference's check prints for it. The same files come out at every run.
"""

import os
import sys

sys.dont_write_bytecode = True
sys.path.insert(0, os.path.dirname(os.path.abspath(__file__)))
import regulated  # noqa: E402

CASES = []


def text(*lines):
    """Lines written with a blank for each tab."""
    return ''.join(line.replace(' ', '\t') + '\n' for line in lines).encode()


HOP_LINES = ['HOP EDF 3', 'HOP SP 0']
PARTY_LINES = ['PARTY 2 5 4 6', 'PARTY 1 5 4 0']
PLAN = text(*HOP_LINES, *PARTY_LINES)
TRACE = text('2 10 700', '1 10 9', '2 14 701', '2 15 702')


def case(name, plan=PLAN, trace=TRACE):
    assert name not in [n for n, _, _ in CASES], name
    CASES.append((name, plan, trace))


def hop(name, line):
    """A plan whose first line is this one."""
    case(name, plan=text(line, 'HOP SP 0', *PARTY_LINES))


def party(name, line):
    """A plan whose last line is this one."""
    case(name, plan=text(*HOP_LINES, 'PARTY 2 5 4 6', line), trace=text('2 10 700'))


def line(name, at_end):
    """A trace whose last line is this one."""
    case(name, trace=text('2 10 700', at_end))


def eight_hops(*parties):
    return text(*['HOP %s %d' % (('EDF', 'SP', 'TABLE')[k % 3], k) for k in range(8)], *parties)


def whole():
    case('worked-example')
    case('smallest', text('HOP SP 0', 'PARTY 0 1 1'), b'')
    case('empty-plan', plan=b'')
    case('empty-plan-and-trace', b'', b'')
    case('empty-trace', trace=b'')
    case('lone-newline-plan', plan=b'\n')
    case('lone-newline-trace', trace=b'\n')
    case('plan-without-last-newline', plan=PLAN[:-1])
    case('trace-without-last-newline', trace=TRACE[:-1])
    case('plan-without-last-newline-and-a-bad-line', plan=text('HOP', *PARTY_LINES)[:-1])
    case('plan-is-one-byte', plan=b'H')
    case('plan-ends-with-return', plan=PLAN[:-1] + b'\r')


def sizes():
    full = eight_hops(*['PARTY %d 40 %s' % (p, ' '.join(['9'] * 8)) for p in range(16)])
    case('plan-32768-bytes', plan=full + b'x' * (32_768 - len(full) - 1) + b'\n')
    case('plan-32769-bytes', plan=full + b'x' * (32_769 - len(full) - 1) + b'\n')
    long_trace = text('2 0 12345', *['2 %d %d' % (10_000_000 + i, 4_294_967_295 - i) for i in range(1_489)])
    assert len(long_trace) == 32_768
    case('trace-32768-bytes', trace=long_trace)
    longer_trace = text('2 0 123456', *['2 %d %d' % (10_000_000 + i, 4_294_967_295 - i) for i in range(1_489)])
    assert len(longer_trace) == 32_769
    case('trace-32769-bytes', trace=longer_trace)
    most_lines = text(*['2 0 0'] * 5_460, '3 0 0')
    assert 32_768 - 6 < len(most_lines) <= 32_768
    case('trace-most-lines-the-last-misplaced', trace=most_lines)


def counts():
    case('eight-hops', eight_hops('PARTY 0 9 1 2 3 4 5 6 7 8'), text('0 0 0'))
    nine = ['HOP EDF 0'] * 9
    case('nine-hops', text(*nine, 'PARTY 0 9 1 2 3 4 5 6 7 8'), text('0 0 0'))
    case('nine-hops-and-nine-bounds', text(*nine, 'PARTY 0 9 1 2 3 4 5 6 7 8 9'), text('0 0 0'))
    sixteen = ['PARTY %d 40 %d' % (p, p + 1) for p in (5, 0, 15, 1, 14, 2, 13, 3, 12, 4, 11, 6, 10, 7, 9, 8)]
    case('sixteen-parties', text('HOP TABLE 7', *sixteen), text(*['%d 3 %d' % (p, 100 + p) for p in range(16)]))
    case('seventeenth-party-line', text('HOP TABLE 7', *sixteen, 'PARTY 8 40 9'), b'')
    case('party-twice', text(*HOP_LINES, 'PARTY 2 5 4 6', 'PARTY 2 5 4 6'))
    case('party-twice-with-other-terms', text(*HOP_LINES, *PARTY_LINES, 'PARTY 1 7 0 6'))
    case('hop-after-party', text('HOP EDF 3', 'PARTY 2 5 4', 'HOP SP 0'))
    case('party-before-any-hop', text('PARTY 2 5'))
    case('two-parties-and-no-hop', text('PARTY 2 5', 'PARTY 1 5'))
    case('party-before-a-hop', text('PARTY 2 5', 'HOP EDF 3'))
    case('party-before-any-hop-with-a-bound', text('PARTY 2 5 4'))
    case('party-before-a-hop-with-a-bound', text('PARTY 2 5 4', 'HOP EDF 3'))
    case('only-hops', text(*HOP_LINES))
    case('only-eight-hops', eight_hops())
    case('only-a-hop-and-a-bad-line', text('HOP EDF 3', 'HOP'))


def plan_forms():
    hop('link-leading-zero', 'HOP EDF 03')
    hop('link-00', 'HOP EDF 00')
    hop('link-0', 'HOP EDF 0')
    hop('link-eleven-digits', 'HOP EDF 00000000003')
    hop('link-eleven-digits-not-zero', 'HOP EDF 10000000000')
    hop('link-ten-digits', 'HOP EDF 9999999999')
    hop('link-plus', 'HOP EDF +3')
    hop('link-minus', 'HOP EDF -3')
    hop('link-hexadecimal', 'HOP EDF 3f')
    hop('link-with-a-point', 'HOP EDF 3.0')
    hop('link-63', 'HOP EDF 63')
    hop('link-64', 'HOP EDF 64')
    hop('kind-unknown', 'HOP FIFO 3')
    hop('kind-lower-case', 'HOP edf 3')
    hop('kind-longer', 'HOP EDFS 3')
    hop('kind-shorter', 'HOP ED 3')
    hop('kind-is-switch', 'HOP SWITCH 3')
    hop('kind-table', 'HOP TABLE 3')
    hop('keyword-lower-case', 'hop EDF 3')
    hop('keyword-hops', 'HOPS EDF 3')
    hop('keyword-ho', 'HO EDF 3')
    hop('keyword-alone', 'HOP')
    hop('hop-too-few-fields', 'HOP EDF')
    hop('hop-too-many-fields', 'HOP EDF 3 0')
    hop('hop-fields-swapped', 'HOP 3 EDF')
    party('party-lower-case', 'party 1 5 4 0')
    party('keyword-parties', 'PARTYS 1 5 4 0')
    party('party-leading-zero', 'PARTY 01 5 4 0')
    party('party-00', 'PARTY 00 5 4 0')
    party('party-0', 'PARTY 0 5 4 0')
    party('party-15', 'PARTY 15 5 4 0')
    party('party-16', 'PARTY 16 5 4 0')
    party('party-eleven-digits', 'PARTY 00000000001 5 4 0')
    party('party-ten-digits', 'PARTY 1000000000 5 4 0')
    party('party-plus', 'PARTY +1 5 4 0')
    party('party-256', 'PARTY 256 5 4 0')
    party('spacing-leading-zero', 'PARTY 1 05 4 0')
    party('spacing-00', 'PARTY 1 00 4 0')
    party('spacing-0', 'PARTY 1 0 4 0')
    party('spacing-1025', 'PARTY 1 1025 4 0')
    party('spacing-65535', 'PARTY 1 65535 4 0')
    party('spacing-65536', 'PARTY 1 65536 4 0')
    party('spacing-4294967297', 'PARTY 1 4294967297 4 0')
    party('spacing-eleven-digits', 'PARTY 1 42949672970 4 0')
    party('spacing-minus', 'PARTY 1 -5 4 0')
    party('bound-leading-zero', 'PARTY 1 5 04 0')
    party('bound-00', 'PARTY 1 5 4 00')
    party('bound-129', 'PARTY 1 5 4 129')
    party('bound-65535', 'PARTY 1 5 4 65535')
    party('bound-65536', 'PARTY 1 5 4 65536')
    party('bound-ten-digits', 'PARTY 1 5 4 9999999999')
    party('bound-eleven-digits', 'PARTY 1 5 4 00000000004')
    party('bound-plus', 'PARTY 1 5 4 +6')
    party('bounds-too-few', 'PARTY 1 5 4')
    party('bounds-too-many', 'PARTY 1 5 4 0 0')
    party('bounds-none', 'PARTY 1 5')
    party('party-alone', 'PARTY')
    party('bounds-uncrossed', 'PARTY 1 5 0 6')
    party('bounds-all-uncrossed', 'PARTY 1 5 0 0')
    case('greatest-sum', text(*['HOP EDF 63'] * 8, 'PARTY 0 65535 ' + ' '.join(['65535'] * 8)), b'')


def trace_forms():
    line('trace-party-leading-zero', '02 11 700')
    line('trace-party-00', '00 11 700')
    line('trace-party-eleven-digits', '00000000002 11 700')
    line('trace-party-ten-digits', '2000000000 11 700')
    line('trace-party-plus', '+2 11 700')
    line('trace-slot-leading-zero', '2 011 700')
    line('trace-slot-eleven-digits', '2 00000000011 700')
    line('trace-slot-minus', '2 -11 700')
    line('trace-slot-16777215', '2 16777215 700')
    line('trace-slot-16777216', '2 16777216 700')
    line('trace-slot-ten-digits', '2 9999999999 700')
    line('trace-label-leading-zero', '2 11 0700')
    line('trace-label-00', '2 11 00')
    line('trace-label-4294967295', '2 11 4294967295')
    line('trace-label-4294967296', '2 11 4294967296')
    line('trace-label-9999999999', '2 11 9999999999')
    line('trace-label-eleven-digits', '2 11 42949672950')
    line('trace-label-plus', '2 11 +7')
    line('trace-label-a-letter', '2 11 x')
    line('trace-too-few-fields', '2 11')
    line('trace-too-many-fields', '2 11 700 0')
    line('trace-keyword', 'LINE 2 11 700')
    case('trace-all-zero', text('HOP SP 0', 'PARTY 0 1 1'), text('0 0 0'))
    case('trace-party-15', text('HOP SP 0', 'PARTY 15 1 1'), text('15 0 0'))
    line('trace-party-15-not-in-the-plan', '15 11 700')
    line('trace-party-16', '16 11 700')
    line('trace-party-0-not-in-the-plan', '0 11 700')


def odd_bytes():
    case('plan-return-before-newline', plan=PLAN.replace(b'\n', b'\r\n'))
    case('plan-return-on-the-last-line', plan=PLAN[:-1] + b'\r\n')
    case('trace-return-before-newline', trace=TRACE.replace(b'\n', b'\r\n'))
    case('plan-two-tabs', plan=PLAN.replace(b'PARTY\t1\t5', b'PARTY\t1\t\t5'))
    case('trace-two-tabs', trace=TRACE.replace(b'2\t14', b'2\t\t14'))
    case('plan-trailing-tab', plan=PLAN.replace(b'SP\t0\n', b'SP\t0\t\n'))
    case('trace-trailing-tab', trace=TRACE.replace(b'701\n', b'701\t\n'))
    case('plan-leading-tab', plan=b'\t' + PLAN)
    case('trace-leading-tab', trace=b'\t' + TRACE)
    case('plan-blank-for-a-tab', plan=PLAN.replace(b'SP\t0', b'SP 0'))
    case('trace-blank-for-a-tab', trace=TRACE.replace(b'2\t14', b'2 14'))
    case('plan-trailing-blank', plan=PLAN.replace(b'SP\t0', b'SP\t0 '))
    case('trace-leading-blank', trace=b' ' + TRACE)
    case('plan-empty-line-inside', plan=PLAN.replace(b'\nPARTY\t2', b'\n\nPARTY\t2'))
    case('plan-empty-line-at-the-end', plan=PLAN + b'\n')
    case('trace-empty-line-inside', trace=TRACE.replace(b'\n1\t10', b'\n\n1\t10'))
    case('trace-empty-line-at-the-end', trace=TRACE + b'\n')
    case('plan-of-tabs', plan=b'\t\t\n')
    case('trace-of-tabs', trace=b'\t\t\n')
    case('plan-zero-byte', plan=PLAN.replace(b'SP\t0', b'SP\t\x00'))
    case('trace-zero-byte', trace=TRACE.replace(b'701', b'70\x00'))
    case('plan-byte-255', plan=PLAN.replace(b'SP\t0', b'SP\t\xff'))
    case('trace-byte-255', trace=b'\xff' + TRACE)
    case('plan-byte-order-mark', plan=b'\xef\xbb\xbf' + PLAN)
    case('trace-wide-digit', trace=TRACE.replace(b'701', b'70\xef\xbc\x91'))
    case('trace-byte-above-nine', trace=TRACE.replace(b'701', b'70:'))
    case('trace-byte-below-zero', trace=TRACE.replace(b'701', b'70/'))


def places():
    case('slot-falls', trace=text('2 10 700', '1 10 9', '2 9 701'))
    case('slots-equal', trace=text('2 10 700', '2 10 700', '2 10 701'))
    case('slots-interleave', trace=text('2 10 700', '1 3 9', '2 11 701', '1 4 10', '2 11 702', '1 11 11'))
    case('slot-falls-after-another-party', trace=text('2 10 700', '1 3 9', '2 11 701', '1 2 10'))
    case('slot-falls-to-0', trace=text('2 1 700', '2 0 701'))


def at_once():
    case('plan-and-trace-faulty', text('HOP EDF 64', *PARTY_LINES), b'x')
    case('plan-lacks-a-party-and-trace-lacks-its-newline', text('HOP EDF 3'), b'x')
    case('place-then-form-on-a-later-line', trace=text('3 10 700', 'x'))
    case('range-then-form-on-a-later-line', trace=text('2 10 4294967296', 'x'))
    case('plan-place-then-form-on-a-later-line', text('HOP EDF 3', 'PARTY 2 5 4', 'HOP SP 0', 'x'))
    case('plan-form-on-a-later-line-before-the-whole', text('PARTY 2 5', 'x'))
    party('form-and-range-the-form-later', 'PARTY 16 5 4 06')
    party('form-and-range-the-range-later', 'PARTY 1 x 4 65536')
    hop('form-and-range-in-a-hop', 'HOP edf 64')
    line('trace-form-and-range', '16 11 x')
    line('trace-form-and-range-too-many-fields', '2 16777216 700 0')
    case('range-and-place-hop-after-party', text('HOP EDF 3', 'PARTY 2 5 4', 'HOP SP 64'))
    case('range-and-place-ninth-hop', text(*['HOP EDF 0'] * 8, 'HOP EDF 64'))
    case('form-and-place-hop-after-party', text('HOP EDF 3', 'PARTY 2 5 4', 'HOP SP'))
    party('range-and-place-party-twice', 'PARTY 2 65536 4 6')
    party('form-and-place-party-twice', 'PARTY 2 5 4')
    line('trace-range-and-place-no-party-line', '3 16777216 700')
    line('trace-range-and-place-slot-falls', '2 9 4294967296')
    line('trace-form-and-place', '3 9 x')


def main(folder):
    for group in (whole, sizes, counts, plan_forms, trace_forms, odd_bytes, places, at_once):
        group()
    stdout = b''
    for name, plan, trace in CASES:
        os.makedirs(os.path.join(folder, name), exist_ok=True)
        for file, data in (('plan.tsv', plan), ('trace.tsv', trace)):
            with open(os.path.join(folder, name, file), 'wb') as f:
                f.write(data)
        stdout += b'== ' + name.encode() + b'\n' + regulated.check(plan, trace)
    with open(os.path.join(folder, 'cases.txt'), 'wb') as f:
        f.write(''.join(name + '\n' for name, _, _ in CASES).encode())
    with open(os.path.join(folder, 'stdout'), 'wb') as f:
        f.write(stdout)


if __name__ == '__main__':
    if len(sys.argv) != 2:
        sys.exit(__doc__)
    main(sys.argv[1])
