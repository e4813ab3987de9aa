#!/usr/bin/env python3
"""Tests target/bin/drift: alters records by hand, runs drift on each pair and compares all that it prints with a count of its own.

    tests/drift.py [--drift PROGRAM] [--seed N]

Run it in the root of the repository. The records are runs/*.record and some that the test makes; the count below is written from
the words of docs/MEASUREMENT.md and shares nothing with the program. Prints `drift: N checks`; the exit status is 0 where all agree.
"""
import argparse
import glob
import os
import random
import re
import subprocess
import sys
import tempfile

WINDOW = 65536
NUMBER = rb'(0|[1-9][0-9]*)'
LINE = re.compile(
    NUMBER + rb' (?:(ok|wait|moved)|no ' + NUMBER + rb'|(read [0-9a-f]{8}|done|same) turns ' + NUMBER
    + rb'( in ' + NUMBER + rb' out ' + NUMBER + rb')?)', re.DOTALL)


def lines(data):
    """The lines of a file: a last newline begins no line."""
    parts = data.split(b'\n')
    if parts[-1] == b'':
        parts.pop()
    return parts


def parse(line):
    """None where it is no line of replay; ('plain',) or ('ending', what it is the same by, count, what follows, the transfers if it tells them)."""
    if len(line) >= WINDOW:
        return None
    m = LINE.fullmatch(line)
    if not m:
        return None
    number, _, refusal, kind, turns, rest, fetched, written = m.groups()
    for n in (refusal, turns, fetched, written):
        if n is not None and (len(n) > 5 or int(n) > 65535):
            return None
    if kind is None:
        return ('plain',)
    return ('ending', (number, kind), int(turns), rest or b'', (int(fetched), int(written)) if rest else None)


def count(record, replay, name, other):
    """What drift has to print for two files' bytes."""
    a, b = lines(record), lines(replay)
    out = []
    endings = drifted = farthest = place = total = changed = 0
    blocks = [[0, 0], [0, 0]]
    for k in range(max(len(a), len(b))):
        both = k < len(a) and k < len(b)
        parsed = []
        for side, title in ((a, name), (b, other)):
            p = parse(side[k]) if k < len(side) else None
            if k < len(side) and p is None:
                out.append(b'%s line %d is no line of replay' % (title, k + 1))
            parsed.append(p)
        p, q = parsed
        if not both:
            changed += 1
        elif p and q and p[0] == q[0] == 'ending' and p[1] == q[1]:
            endings += 1
            gap = abs(p[2] - q[2])
            if gap:
                drifted += 1
                total += gap
                out.append(b'%d turns %d now %d' % (k + 1, p[2], q[2]))
                if gap > farthest:
                    farthest, place = gap, k + 1
            if p[3] != q[3]:
                changed += 1
            if p[4] and q[4] and p[4] != q[4]:
                out.append(b'%d in %d out %d now %d %d' % ((k + 1,) + p[4] + q[4]))
            for side, told in zip(blocks, (p[4], q[4])):
                if told:
                    side[0] += told[0]
                    side[1] += told[1]
        elif a[k] != b[k] or len(a[k]) >= WINDOW:
            changed += 1
    far = b'farthest %d line %d' % (farthest, place) if farthest else b'farthest 0'
    out += [b'endings %d' % endings, b'drifted %d' % drifted, far, b'total %d' % total, b'changed %d' % changed]
    out += [b'%s %d now %d' % (word, blocks[0][k], blocks[1][k]) for k, word in enumerate((b'in', b'out'))]
    return b''.join(l + b'\n' for l in out)


class Test:
    def __init__(self, program, folder):
        self.program, self.folder, self.done, self.wrong = program, folder, 0, 0

    def fail(self, title, got, want):
        self.wrong += 1
        print(f'drift: {title}: differs')
        for g, w in zip(got.split(b'\n') + [b''] * 3, want.split(b'\n') + [b''] * 3):
            if g != w:
                print(f'  printed {g[:200]!r}\n  counted {w[:200]!r}')
                break

    def run(self, args):
        run = subprocess.run(['./launch', self.program] + args, capture_output=True, timeout=600)
        if run.stderr.startswith(b'launch: '):
            sys.exit(run.stderr.decode().strip())
        return run

    def pair(self, title, record, replay):
        """One check in each direction."""
        one, two = os.path.join(self.folder, 'record'), os.path.join(self.folder, 'replay')
        for a, b in ((record, replay), (replay, record)):
            with open(one, 'wb') as f:
                f.write(a)
            with open(two, 'wb') as f:
                f.write(b)
            self.done += 1
            got = self.run([one, two])
            want = count(a, b, one.encode(), two.encode())
            if got.stdout != want or got.stderr:
                self.fail(title, got.stdout + got.stderr, want)

    def sentence(self, title, args, want):
        self.done += 1
        got = self.run(args)
        if got.stdout or got.stderr != want:
            self.fail(title, got.stdout + got.stderr, want)


def mixed(rng, n, tails):
    """n lines as replay writes them."""
    out = []
    for k in range(1, n + 1):
        what = rng.choice(('ok', 'wait', 'moved', 'moved', 'no', 'read', 'done', 'same'))
        if what == 'no':
            what += ' %d' % rng.randint(1, 17)
        elif what in ('read', 'done', 'same'):
            turns = rng.choice((1, 2, 3, 4, 5, 9, 16, 30, 31, 65534, 65535, rng.randint(1, 65535)))
            what += (' %08x' % rng.getrandbits(32) if what == 'read' else '') + ' turns %d' % turns
            if tails:
                what += ' in %d out %d' % (rng.randint(0, 3), rng.randint(0, 3))
        out.append(b'%d %s' % (k, what.encode()))
    return out


def turned(line, turns):
    return re.sub(rb'turns [0-9]+', b'turns %d' % turns, line)


def altered(rng, record, share, damage):
    """The lines with some altered: counts up and down, values, kinds, tails, and with damage: lines lost, added or broken."""
    out = []
    for line in record:
        if rng.random() >= share:
            out.append(line)
            continue
        m = re.search(rb'turns ([0-9]+)', line)
        ways = ['number', 'kind']
        if m:
            ways += ['up', 'down', 'up', 'down', 'any', 'value', 'tail']
        if damage:
            ways += ['lost', 'added', 'cut', 'byte', 'zero', 'large', 'empty']
        way = rng.choice(ways)
        if way == 'up':
            line = turned(line, min(65535, int(m.group(1)) + rng.randint(1, 40)))
        elif way == 'down':
            line = turned(line, max(0, int(m.group(1)) - rng.randint(1, 40)))
        elif way == 'any':
            line = turned(line, rng.randint(0, 65535))
        elif way == 'value':
            line = re.sub(rb'read [0-9a-f]{8}', b'read %08x' % rng.getrandbits(32), line)
        elif way == 'tail':
            told = b' in %d out %d' % (rng.randint(0, 4), rng.randint(0, 4))
            line = re.sub(rb' in .*', rng.choice((b'', told, told)), line) if b' in ' in line else line + told
        elif way == 'number':
            line = re.sub(rb'^[0-9]+', b'%d' % rng.randint(0, 10 ** 9), line)
        elif way == 'kind':
            line = line.replace(b'done', b'same') if b'done' in line else line.replace(b'moved', b'wait')
        elif way == 'lost':
            continue
        elif way == 'added':
            out.append(b'1 ok')
        elif way == 'cut':
            line = line[:rng.randint(0, len(line))]
        elif way == 'byte' and line:
            k = rng.randrange(len(line))
            line = line[:k] + bytes([rng.choice([b for b in range(256) if b != 10])]) + line[k + 1:]
        elif way == 'zero':
            line = line.replace(b'turns ', b'turns 0')
        elif way == 'large':
            line = turned(line, rng.choice((65536, 99999, 100000, 2 ** 32 + 3, 2 ** 64, 10 ** 30)))
        elif way == 'empty':
            line = b''
        out.append(line)
    return out


def text(ls, last=True):
    return b'\n'.join(ls) + (b'\n' if last and ls else b'')


# lines like Case R's, and one ending of before 02's E4, without transfers
CASE = text([
    b'1 ok', b'2 ok', b'3 no 13', b'4 moved', b'5 wait', b'6 moved', b'7 done turns 3 in 1 out 0', b'8 moved', b'9 moved', b'10 done turns 4 in 2 out 1', b'11 ok',
    b'12 moved', b'13 read 00000000 turns 2', b'14 ok'])

# each line beside each other line, and beside itself
ODD = [
    b'', b' ', b'1', b'1 ', b'1 ok', b'2 ok', b'01 ok', b'0 ok', b'1  ok', b'1 ok ', b'1 ok\r', b'-1 ok', b'1 OK', b'1 okk', b'1 o', b'1 wait', b'1 waits',
    b'1 moved', b'1 move', b'1 no 12', b'1 no 8', b'1 no', b'1 no ', b'1 no 012', b'1 no 65535', b'1 no 65536', b'1 no 1x', b'1 no 12 ', b'1 done', b'1 done turns',
    b'1 done turns ', b'1 done turns 0', b'1 done turns 3', b'1 done turns 4', b'1 done turns 03', b'1 done turns 65535', b'1 done turns 65536', b'1 done turns 655350',
    b'1 done turns 3 ', b'1 done turns 3x', b'1 done  turns 3', b'2 done turns 3', b'12 done turns 3', b'1 same turns 3', b'1 same turns 9', b'1 read 0000000a turns 3',
    b'1 read 0000000a turns 33', b'1 read 0000000b turns 3', b'1 read 0000000A turns 3', b'1 read 0000000g turns 3', b'1 read 000000a turns 3', b'1 read 00000000a turns 3',
    b'1 read turns 3', b'1 read 0000000a', b'1 read 0000000a turn 3', b'1 done turns 3 in 1 out 0', b'1 done turns 4 in 1 out 0', b'1 done turns 3 in 2 out 0',
    b'1 done turns 3 in 1 out 1', b'1 done turns 3 in 1', b'1 done turns 3 in 1 out', b'1 done turns 3 in 1 out ', b'1 done turns 3 in 01 out 0', b'1 done turns 3 in 1 out 00',
    b'1 done turns 3 in 65536 out 0', b'1 done turns 3 in 1 out 65536', b'1 done turns 3 out 0 in 1', b'1 done turns 3 in 1 out 0 x', b'1 done turns 3 in x out 0',
    b'18446744073709551616 ok', b'99999999999999999999999999 done turns 3', b'99999999999999999999999999 done turns 5', b'\x00', b'1\x00ok', b'\xff\xfe',
    b'1 done turns 3 in', b'1 read 0000000a turns 3 in 255 out 255', b'1 read 0000000a turns 5 in 255 out 255', b'ok', b'a ok', b'1 done turn', b'1 same turns x']


def main():
    p = argparse.ArgumentParser()
    p.add_argument('--drift', default='target/bin/drift')
    p.add_argument('--seed', type=int, default=8)
    given = p.parse_args()
    rng = random.Random(given.seed)
    with tempfile.TemporaryDirectory(prefix='drift-') as folder:
        t = Test(os.path.abspath(given.drift), folder)
        t.pair('Case R beside itself', CASE, CASE)
        for turns in (0, 1, 2, 3, 4, 5, 17, 65535, 65536):
            t.pair(f'Case R, line 7 with {turns} turns', CASE, CASE.replace(b'done turns 3', b'done turns %d' % turns))
            t.pair(f'Case R, lines 7 and 13 with {turns} turns', CASE, re.sub(rb'turns [23]', b'turns %d' % turns, CASE))
        t.pair('Case R, farthest twice', CASE, CASE.replace(b'turns 3', b'turns 5').replace(b'turns 4', b'turns 2'))
        for told in (b'', b' in 0 out 0', b' in 1 out 1', b' in 2 out 0', b' in 255 out 255', b' in 65535 out 65535', b' in 65536 out 0'):
            t.pair(f'line 7 with the transfers{told.decode()}', CASE, CASE.replace(b' in 1 out 0', told))
            t.pair(f'every line with the transfers{told.decode()}', CASE, re.sub(rb'(turns [0-9]+)( in .*)?', rb'\1' + told, CASE))
        t.pair('Case R, a value changed', CASE, CASE.replace(b'read 00000000', b'read 0000000a'))
        t.pair('Case R, a value and a count changed', CASE, CASE.replace(b'read 00000000 turns 2', b'read 0000000a turns 3'))
        for k in range(15):
            t.pair(f'Case R, cut after {k} lines', CASE, text(lines(CASE)[:k]))
            t.pair(f'Case R, without line {k + 1}', CASE, text(lines(CASE)[:k] + lines(CASE)[k + 1:]))
        t.pair('no line and no line', b'', b'')
        t.pair('no line and a newline', b'', b'\n')
        t.pair('no last newline', CASE, CASE[:-1])
        t.pair('no last newline, both', CASE[:-1], CASE[:-1])
        t.pair('newlines after the end', CASE, CASE + b'\n\n')
        t.pair('every odd line beside itself', text(ODD), text(ODD))
        for a in ODD:
            t.pair(f'{a!r} beside each odd line', text([a] * len(ODD)), text(ODD))
        for n in (1, 2, 70, 1000, 20000):
            for tails in (False, True):
                for share in (0, 0.02, 0.5, 1):
                    for damage in (False, True):
                        record = mixed(rng, n, tails)
                        t.pair(f'{n} lines, {share} altered', text(record), text(altered(rng, record, share, damage), rng.random() < 0.5))
        # lines that meet the window's end at every place, and lines that no window holds
        for k in range(40):
            lead = [b'1 ok' + b'x' * (WINDOW - 60 + k)]
            t.pair(f'a line of {len(lead[0])} bytes before', text(lead + mixed(rng, 30, True)), text(lead + mixed(rng, 30, True)))
        for n in (WINDOW - 2, WINDOW - 1, WINDOW, WINDOW + 1, 2 * WINDOW, 3 * WINDOW + 5):
            long = b'7' * n
            t.pair(f'{n} bytes without a newline', long, long)
            t.pair(f'a line of {n} bytes', text([b'1 ok', long, b'3 done turns 3']), text([b'1 ok', long, b'3 done turns 4']))
            t.pair(f'a line of {n} bytes in one', text([b'1 ok', long, b'3 done turns 3']), text([b'1 ok', b'2 ok', b'3 done turns 4']))
        t.pair('200,000 lines', text(mixed(random.Random(1), 200000, False)), text(altered(rng, mixed(random.Random(1), 200000, False), 0.001, False)))
        for path in sorted(glob.glob('runs/*.record')):
            with open(path, 'rb') as f:
                record = f.read()
            t.pair(f'{path} beside itself', record, record)
            for damage in (False, True):
                for share in (0.001, 0.1, 1):
                    t.pair(f'{path}, {share} altered', record, text(altered(rng, lines(record), share, damage)))
        here, away = os.path.join(folder, 'record'), os.path.join(folder, 'away')
        wanted = b'drift: two file names are wanted: drift RECORD REPLAY\n'
        for args in ([], [here], [here, here, here]):
            t.sentence(f'{len(args)} arguments', args, wanted)
        missing = lambda name: b'drift: the file ' + name.encode() + b' cannot be read\n'
        t.sentence('no such record', [away, here], missing(away))
        t.sentence('no such replay', [here, away], missing(away))
        t.sentence('neither', [away, away + '2'], missing(away))
        t.sentence('a folder', [here, folder], missing(folder))
        t.sentence('an empty name', ['', here], missing(''))
    print(f'drift: {t.done} checks' + (f', {t.wrong} differ' if t.wrong else ''))
    sys.exit(1 if t.wrong else 0)


main()
