#!/usr/bin/env python3
"""Tests runs/month: plays a year in a scratch folder, with records altered by hand, and reads the picture back, cell by cell.

    tests/month.py [--keep PICTURE]     --keep: writes the year's picture there, to be looked at

Run it in the root of the repository. What is read is what is drawn: texts, fills, frames and triangles, by where they stand in the picture.
Prints `month: N checks`; the exit status is 0 where all agree.
"""
import argparse
import os
import re
import shutil
import subprocess
import sys
import tempfile
import xml.etree.ElementTree as tree

SVG = '{http://www.w3.org/2000/svg}'
MONTHS = 'Jan Feb Mar Apr May Jun Jul Aug Sep Oct Nov Dec'.split()
RUNS = ['case-r', 'bound-top-write-8', 'leaf-done', 'map-wait', 'probe-read', 'refused', 'two-maps']
done = wrong = 0


def check(title, got, want):
    global done, wrong
    done += 1
    if got != want:
        wrong += 1
        print(f'month: {title}: differs\n  got    {got!r}\n  wanted {want!r}')


# ---- the picture, read back

class Picture:
    """Its texts; its grid, as row label -> twelve cells; its key, as caption -> fill. A cell is its texts from above, its fill, and its marks."""

    def __init__(self, path):
        root = tree.parse(path).getroot()
        self.texts = [(float(t.get('x')), float(t.get('y')), t.text, t.get('text-anchor')) for t in root.iter(SVG + 'text')]
        self.boxes = [tuple(float(r.get(k)) for k in ('x', 'y', 'width', 'height')) + (r.get('fill'),) for r in root.iter(SVG + 'rect') if r.get('x')]
        self.triangles = [tuple(float(n) for n in re.fullmatch(r'M(\S+) (\S+)h\S+l\S+ (\S+)z', p.get('d')).groups()) for p in root.iter(SVG + 'path') if p.get('fill')]
        self.said = [words for _, _, words, _ in self.texts]
        columns = {words: x for x, _, words, _ in self.texts if words in MONTHS}
        head = max(y for _, y, words, _ in self.texts if words in MONTHS)
        self.heads = [next(words for x, y, words, _ in self.texts if x == columns[m] and 0 < y - head < 20) for m in MONTHS]
        self.grid = {words: [self.cell(columns[m], y - 4) for m in MONTHS] for x, y, words, anchor in self.texts if anchor == 'end' and y > head}
        self.key = {words: self.cell(x, y - 30)[1] for x, y, words, _ in self.texts if re.fullmatch('[+\u2212]?[0-9].*', words) and y < head and self.cell(x, y - 30)[1]}

    def cell(self, x, y):
        """The cell that the place is in: the widest box there."""
        at = [b for b in self.boxes if b[0] < x < b[0] + b[2] and b[1] < y < b[1] + b[3]]
        if not at:
            return 'no cell', '', ''
        left, top, wide, high, fill = max(at, key=lambda b: b[2])
        inside = lambda x, y: left < x < left + wide and top < y < top + high
        words = [w for _, w in sorted((y, w) for x, y, w, _ in self.texts if inside(x, y))]
        marks = ['frame'] * (len(at) - 1) + ['up' if rise < 0 else 'down' for x, y, rise in self.triangles if inside(x, y)]
        return ', '.join(words), fill, ' '.join(marks)

    def row(self, label):
        return [f'{words} {marks}'.strip() for words, _, marks in self.grid.get(label, [])]

    def shaded(self, title):
        """Each cell's fill is the one that the key has for its number."""
        for label, cells in self.grid.items():
            for month, (words, fill, _) in zip(MONTHS, cells):
                m = re.match('([+\u2212]?)([0-9,]+)', words)
                if m:
                    sign, n = m[1], int(m[2].replace(',', ''))
                    caption = '0' if n == 0 else sign + ('1' if n == 1 else '2 to 9' if n < 10 else '10 to 99' if n < 100 else '100 or more')
                    check(f'{title}, {label} in {month}: the fill', fill, self.key.get(caption))
        check(f'{title}: nine fills, none of them twice', len(set(self.key.values())), 9)


# ---- the month's command

class Folder:
    def __init__(self, path):
        self.path = path

    def month(self, *args, status=0):
        """What the command prints; its exit status is checked."""
        run = subprocess.run(['runs/month', *args, '--runs', self.path], capture_output=True, text=True, timeout=600)
        if 'launch: ' in run.stderr:
            sys.exit(run.stderr.strip())
        check(f'runs/month {" ".join(args)}: exit status, {run.stderr.strip()}', run.returncode, status)
        return run.stdout

    def file(self, name):
        return os.path.join(self.path, name)

    def add(self, name):
        shutil.copy(f'runs/{name}.script', self.path)
        self.month('--record')

    def alter(self, name, drifts, changed=0):
        """Rewrites the record so that the month finds ending k drifted by drifts[k], and that many lines changed."""
        with open(self.file(name + '.record')) as f:
            lines = f.read().split('\n')
        endings = [k for k, l in enumerate(lines) if ' turns ' in l]
        for k, drift in drifts.items():
            lines[endings[k]] = re.sub(r'turns (\d+)', lambda m: f'turns {int(m[1]) - drift}', lines[endings[k]])
        for k in [k for k, l in enumerate(lines) if l.endswith(' ok')][:changed]:
            lines[k] = lines[k].replace(' ok', ' wait')
        with open(self.file(name + '.record'), 'w') as f:
            f.write('\n'.join(lines))

    def rows(self, month):
        """The month's rows of the table: run -> drifted, farthest, total, changed, and the transfers where it has them."""
        with open(self.file('drift.tsv')) as f:
            return {r[1]: r[3:] for r in (l.rstrip('\n').split('\t') for l in f) if r[0] == month}

    def transfer(self, name, by):
        """Alters the transfers of the record's endings: by[k] is added to the blocks fetched and the blocks written back of its k-th ending."""
        with open(self.file(name + '.record')) as f:
            lines = f.read().split('\n')
        endings = [k for k, l in enumerate(lines) if ' turns ' in l]
        for k, (fetched, back) in by.items():
            lines[endings[k]] = re.sub(r'in (\d+) out (\d+)', lambda m: f'in {int(m[1]) + fetched} out {int(m[2]) + back}', lines[endings[k]])
        with open(self.file(name + '.record'), 'w') as f:
            f.write('\n'.join(lines))

    def picture(self):
        return Picture(self.file('drift.svg'))


def played(folder):
    """A year: nothing measured in March and from September on, a run that came in April, drifts up and down, changed lines."""
    for name in RUNS[:-1]:
        folder.add(name)
    folder.month('--check')
    folder.month('2027-01')
    p = folder.picture()
    check('January: the one row', list(p.grid), ['6 runs never drifted or changed'])
    check('January: its cells', p.row('6 runs never drifted or changed'), ['0, 6 runs'] + [''] * 11)
    check('January: the columns', p.heads, ['6 runs'] + ['not measured'] * 11)
    check('January: the year', '6 runs, 1 month measured. Farthest of the year: 0 turns.' in p.said, True)

    folder.alter('map-wait', {0: 1, 1: -1})
    folder.alter('leaf-done', {0: -1, 1: 1})
    folder.month('--check', status=1)
    folder.month('2027-02')
    folder.month('2027-02', status=2)
    check('February: two that are as far, the first line has the sign', [folder.rows('2027-02')[n][:4] for n in ('map-wait', 'leaf-done')],
          [['2', '+1', '2', '0'], ['2', '-1', '2', '0']])
    folder.add('two-maps')
    folder.alter('bound-top-write-8', {-1: 15, 0: -2})
    folder.month('2027-04')
    folder.alter('map-wait', {2: -150})
    folder.alter('refused', {}, changed=2)
    folder.month('2027-05')
    check('May: all runs', folder.rows('2027-05')['all'][:4], ['7', '-150', '171', '2'])
    folder.alter('two-maps', {1: -9}, changed=1)
    folder.alter('leaf-done', {2: -60000}, changed=1)
    folder.month('2027-06')
    folder.month('--record', '--again')
    folder.month('2027-07')
    folder.alter('map-wait', {4: 2})
    folder.month('2027-08')
    folder.month('2027-08', '--again')

    p = folder.picture()
    none = [''] * 4
    want = {
        'bound-top-write-8': ['0', '0', '', '+15 up', '+15 up', '+15 up', '0', '0'],
        'leaf-done': ['0', '\u22121 down', '', '\u22121 down', '\u22121 down', '\u221260,000, 1 changed frame down', '0', '0'],
        'map-wait': ['0', '+1 up', '', '+1 up', '\u2212150 down', '\u2212150 down', '0', '+2 up'],
        'refused': ['0', '0', '', '0', '0, 2 changed frame', '0, 2 changed frame', '0', '0'],
        'two-maps': ['not there', 'not there', '', '0', '0', '\u22129, 1 changed frame down', '0', '0'],
        '2 runs never drifted or changed': ['0, 2 runs', '0, 2 runs', '', '0, 2 runs', '0, 2 runs', '0, 2 runs', '0, 2 runs', '0, 2 runs']}
    check('the rows, in the order of the sheet', list(p.grid), list(want))
    for label in want:
        check(f'the year, {label}', p.row(label), want[label] + none)
        check(f'the year, {label}: hatched where nothing was measured', [fill == 'url(#hatch)' for _, fill, _ in p.grid.get(label, [])], [m in (2, 8, 9, 10, 11) for m in range(12)])
    check('the columns', p.heads, ['6 runs', '6 runs', 'not measured'] + ['7 runs'] * 5 + ['not measured'] * 4)
    check('the title', 'Turns, 2027: farthest drift from the printed record' in p.said, True)
    check('the year', '7 runs, 7 months measured. Farthest of the year: \u221260,000 turns, leaf-done in Jun.' in p.said, True)
    p.shaded('the year')


def drawn(folder):
    """A table written by hand: every step of the key at both its ends, runs that are there in some months only, another year's rows, no row at all."""
    far = [0, 1, 2, 9, 10, 99, 100, 999, 1000, 9999, 10000, 65535]
    rows = [f'2028-{m + 1:02d}\t{name}\t5\t{int(sign * n != 0)}\t{"%+d" % (sign * n) if n else 0}\t{n}\t0' for m, n in enumerate(far) for name, sign in (('more', 1), ('fewer', -1))]
    rows += [f'2028-{m:02d}\tstill-{m}\t5\t0\t0\t0\t0' for m in (1, 2)] + ['2027-01\tof-before\t5\t1\t+3\t3\t0', '2028-01\tall\t5\t1\t+1\t1\t0']
    for table, status in ((rows, 0), (rows + ['2028-12\tunsigned\t5\t1\t3\t3\t0'], 2)):
        with open(folder.file('drift.tsv'), 'w') as f:
            f.write('\n'.join(['month\trun\tendings\tdrifted\tfarthest\ttotal\tchanged'] + table) + '\n')
        folder.month('--draw', '2028', status=status)
    p = folder.picture()
    check('by hand: the rows', list(p.grid), ['fewer', 'more', '2 runs never drifted or changed'])
    check('by hand: more turns', p.row('more'), ['0'] + [f'+{n:,} up' for n in far[1:]])
    check('by hand: fewer turns', p.row('fewer'), ['0'] + [f'\u2212{n:,} down' for n in far[1:]])
    check('by hand: the folded row', p.row('2 runs never drifted or changed'), ['0, 1 run'] * 2 + ['not there'] * 10)
    p.shaded('by hand')
    with open(folder.file('drift.tsv'), 'w') as f:
        f.write('month\trun\tendings\tdrifted\tfarthest\ttotal\tchanged\n')
    folder.month('--draw', '2028')
    check('no row: no grid', (folder.picture().grid, '0 runs, 0 months measured. Farthest of the year: 0 turns.' in folder.picture().said), ({}, True))


def transferred(folder):
    """The transfers' columns: each run's sums, their differences to the record, and a table that begins with a month of before."""
    old = '2027-01\tcase-r\t3\t0\t0\t0\t0'
    with open(folder.file('drift.tsv'), 'w') as f:
        f.write('month\trun\tendings\tdrifted\tfarthest\ttotal\tchanged\n' + old + '\n')
    for name in ('case-r', 'two-maps'):
        folder.add(name)
    sums = {}
    for name in ('case-r', 'two-maps'):
        with open(folder.file(name + '.record')) as f:
            told = [(int(m[1]), int(m[2])) for m in re.finditer(r' in (\d+) out (\d+)$', f.read(), re.M)]
        sums[name] = [sum(side) for side in zip(*told)]
    check('the records tell transfers', sums['case-r'], [1, 0])
    folder.month('2027-02')
    folder.transfer('case-r', {0: (2, 0), 1: (0, 1)})
    folder.transfer('two-maps', {0: (-1, 0), 1: (1, 3)})
    sheet = folder.month('--check', status=1)
    check('an ending with other transfers is named', 'case-r: 7 in 3 out 0 now 1 0\ncase-r: 12 in 0 out 1 now 0 0\n' in sheet, True)
    folder.month('2027-03')
    both = [str(a + b) for a, b in zip(*sums.values())]
    for month, changed, differ in (('2027-02', ('0', '0', '0'), (('0', '0'), ('0', '0'), ('0', '0'))), ('2027-03', ('2', '2', '4'), (('-2', '-1'), ('0', '-3'), ('-2', '-4')))):
        for name, lines, (fetched, back), now in zip(('case-r', 'two-maps', 'all'), changed, differ, ([str(n) for n in sums['case-r']], [str(n) for n in sums['two-maps']], both)):
            check(f'{month}, {name}', folder.rows(month)[name], ['0', '0', '0', lines, now[0], fetched, now[1], back])
    with open(folder.file('drift.tsv')) as f:
        lines = f.read().split('\n')
    check('the month of before stays as it was', lines[1], old)
    check('the columns are named', lines[0], 'month\trun\tendings\tdrifted\tfarthest\ttotal\tchanged\tin\tin-diff\tout\tout-diff')
    with open(folder.file('drift.tsv'), 'a') as f:
        f.write('2027-04\tcase-r\t3\t0\t0\t0\t0\t1\t0\n')
    folder.month('--draw', '2027', status=2)


def kept(folder):
    """The picture in runs/ is that of the last year of the table in runs/."""
    shutil.copy('runs/drift.tsv', folder.path)
    with open('runs/drift.tsv') as f:
        folder.month('--draw', f.read().rstrip('\n').split('\n')[-1][:4])
    drawings = []
    for path in ('runs/drift.svg', folder.file('drift.svg')):
        with open(path, 'rb') as f:
            drawings.append(f.read())
    check('runs/drift.svg is drawn from runs/drift.tsv', drawings[0] == drawings[1], True)


def main():
    p = argparse.ArgumentParser()
    p.add_argument('--keep', metavar='PICTURE')
    given = p.parse_args()
    with tempfile.TemporaryDirectory(prefix='month-test-') as path:
        folder = Folder(path)
        played(folder)
        if given.keep:
            shutil.copy(folder.file('drift.svg'), given.keep)
        drawn(folder)
        kept(folder)
    with tempfile.TemporaryDirectory(prefix='month-test-') as path:
        transferred(Folder(path))
    print(f'month: {done} checks' + (f', {wrong} differ' if wrong else ''))
    sys.exit(1 if wrong else 0)


main()
