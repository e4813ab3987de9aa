#!/usr/bin/env python3
"""Writes the scripts of runs/ that are neither Case R nor the bounds: a run for each branch of a step, long mixed runs, a run for each tracker count.

    tests/runs.py [FOLDER]      writes FOLDER/NAME.script (default: runs)
    tests/runs.py --table       prints the table of runs/README.md

The seeds are fixed: each call writes the same bytes. A script that has a record should not change: its record is of the old one.
"""
import os
import random
import sys

RUNS = []


def run(name, what, text):
    RUNS.append((name, what, [l.strip() for l in text.strip().replace('\n', ';').split(';') if l.strip()]))


# ---- a run for each branch of a step

run('probe-read', 'Probe: the leaf is in a line, so a bottom-up read ends at its first turn, with a value and with 0', '''
n 2 3 1; w 0 17 0000000a t; s 0; s 0; s 0
r 0 17 b; s 0; r 0 18 b; s 0; d; r 0 17 b; s 0''')
run('probe-same', 'Probe: the leaf is in a line and the group is the value, so a bottom-up write ends "same" at its first turn; another value goes on to Map', '''
n 2 3 1; w 0 17 0000000a t; s 0; s 0; s 0
w 0 17 0000000a b; s 0; w 0 18 00000000 b; s 0; w 0 17 0000000b b; s 0; s 0; s 0; d''')
run('probe-miss', 'Probe: the leaf is in no line, so a bottom-up access goes on to Map: a read and a write of 0 under bit 0, a read under bit 1', '''
n 4 3 1; r 0 5 b; s 0; s 0; w 0 5 00000000 b; s 0; s 0
w 0 17 0000000a t; s 0; s 0; s 0; w 0 33 0000000b t; s 0; s 0; s 0; w 0 49 0000000c t; s 0; s 0; s 0
r 0 17 b; s 0; s 0; s 0; d''')
run('map-wait', 'Map: another tracker holds the map block, so the step waits and counts a turn; at Leaf and at Finish of the holder, and of two in line', '''
n 4 4 3; w 0 17 0000000a t; w 1 33 0000000b t; r 2 49 b; s 0; s 1; s 2; s 2; s 1; s 0; s 1; s 2; s 0
s 2; s 1; s 1; s 1; r 2 33 t; w 0 34 0000000c b; s 2; s 0; s 0; s 2; s 0; s 0; d''')
run('map-zero-read', 'Map: bit 0, so a read ends with 0, top-down at its first turn and bottom-up at its second', '''
n 2 3 2; r 0 0 t; s 0; r 0 31 t; s 0; r 1 16 b; s 1; s 1; d''')
run('map-zero-same', 'Map: bit 0, so a write of 0 ends "same", top-down at its first turn and bottom-up at its second', '''
n 2 3 2; w 0 0 00000000 t; s 0; w 1 31 00000000 b; s 1; s 1; d''')
run('leaf-read', 'Leaf, read: bit 1, the leaf in a line, and brought in from memory after others took its line', '''
n 4 3 1; w 0 17 0000000a t; s 0; s 0; s 0; r 0 17 t; s 0; s 0; r 0 18 t; s 0; s 0
w 0 33 0000000b t; s 0; s 0; s 0; w 0 49 0000000c t; s 0; s 0; s 0; r 0 17 t; s 0; s 0; r 0 33 b; s 0; s 0; s 0''')
run('leaf-same', 'Leaf, write under bit 1 of the value that is there: "same" at Leaf, of a value and of 0 in a leaf that is not empty', '''
n 2 3 1; w 0 17 0000000a t; s 0; s 0; s 0; w 0 17 0000000a t; s 0; s 0; w 0 18 00000000 t; s 0; s 0; d''')
run('leaf-done', 'Leaf, write under bit 1 of another value: done at Leaf, with no Finish', '''
n 2 3 1; w 0 17 0000000a t; s 0; s 0; s 0; w 0 17 0000000b t; s 0; s 0; w 0 18 ffffffff t; s 0; s 0; w 0 17 00000000 t; s 0; s 0
r 0 17 b; s 0; r 0 18 b; s 0; d''')
run('leaf-emptied', 'Leaf, write that empties the leaf: on to Finish (clear); then the bit is 0', '''
n 2 3 1; w 0 17 0000000a t; s 0; s 0; s 0; w 0 17 00000000 t; s 0; s 0; s 0; r 0 17 t; s 0
w 0 17 0000000b t; s 0; s 0; s 0; d; w 0 17 00000000 b; s 0; s 0; s 0; s 0; r 0 17 b; s 0; s 0; d''')
run('leaf-created', 'Leaf, write under bit 0: the leaf is created and not fetched, on to Finish (set), top-down and bottom-up', '''
n 3 3 1; w 0 17 0000000a t; s 0; s 0; s 0; w 0 33 0000000b b; s 0; s 0; s 0; s 0; r 0 17 t; s 0; s 0; r 0 33 b; s 0; d''')
run('evict-past-held', 'Placing: no line is free; the hand passes a held map line and a changed leaf goes back to memory; it reads right afterwards', '''
n 600 3 2; w 0 17 0000000a t; s 0; s 0; s 0; w 0 33 0000000b t; s 0; w 1 8320 00000001 t; s 1; s 1; s 1; s 0; s 0
r 0 17 t; s 0; s 0; r 1 8320 b; s 1; s 1; s 1; r 0 33 t; s 0; s 0; d''')
run('recreated-stale', 'A leaf is drained, emptied and created again: what memory has of it is stale, and its other groups read 0', '''
n 2 3 1; w 0 17 0000000a t; s 0; s 0; s 0; d; w 0 17 00000000 t; s 0; s 0; s 0; w 0 18 0000000b t; s 0; s 0; s 0
r 0 17 t; s 0; s 0; r 0 18 t; s 0; s 0; d; r 0 17 b; s 0''')
run('evict-map', 'Two lines for two map blocks and their leaves: changed map blocks go back to memory and are brought in again', '''
n 800 2 1; w 0 0 00000001 t; s 0; s 0; s 0; w 0 8192 00000002 t; s 0; s 0; s 0; r 0 0 t; s 0; s 0; r 0 8192 t; s 0; s 0
w 0 0 00000000 t; s 0; s 0; s 0; r 0 8192 b; s 0; s 0; s 0; r 0 0 b; s 0; s 0; d''')
run('two-maps', 'Two trackers under two map blocks: neither waits for the other', '''
n 600 6 2; w 0 17 0000000a t; w 1 8320 0000000b t; s 0; s 1; s 0; s 1; s 0; s 1; r 0 8320 t; r 1 17 t; s 1; s 0; s 0; s 1; d''')
run('one-group', 'Two accesses to one group: a read beside a read passes; a write beside a read, and either beside a write, at Finish too, is refused 13; a busy tracker 7 first; another group of the leaf passes', '''
n 2 4 3; r 0 17 t; r 1 17 b; w 2 17 0000000a t; w 0 17 0000000a t; s 0; w 2 17 0000000a t; s 1; s 1
w 2 17 0000000a t; r 0 17 b; w 1 17 00000000 t; r 0 18 t; s 2; s 0; s 2; r 1 17 b; s 2; r 1 17 b; s 1; s 0; s 0; d''')
run('refused', 'The refusals that a script can meet after its first line but 13, and that each leaves all as it was', '''
n 2 3 2; r 2 0 t; r 0 32 t; w 0 17 0000000a t; w 0 17 0000000b t; d; s 1; s 2; s 0; x; n 2 3 2; s 0; r 1 0 z; w 1 17 A t; s 0; s 0; s 1; d; r 0 17 b; s 0''')
run('refused-first', 'A first line out of limits: refusal 1, and 12 for every line after it', '''
n 801 3 2; n 2 3 2; r 0 0 t; s 0; d''')


# ---- long runs

def mixed(seed, lines, n, l, t, groups, bottom, reads, zeros, drains):
    """A script of that many lines: trackers are stepped at random and issued anew once they were given enough turns to end, as a rule."""
    rng = random.Random(seed)
    out = ['n %d %d %d' % (n, l, t)]
    given = [9] * t
    near = rng.randrange(groups)
    while len(out) < lines:
        x = rng.randrange(t)
        if rng.random() < drains:
            # all are given the turns that they may want before a drain
            for _ in range(3):
                for y in range(t):
                    if given[y] < 4 and len(out) < lines - 1:
                        out.append('s %d' % y)
                        given[y] += 1
            out.append('d')
        elif given[x] >= rng.randint(1, 4):
            if rng.random() < 0.3:
                near = rng.randrange(groups)
            g = (near + rng.choice((0, 0, 0, 1, 2, 16, 17))) % groups
            order = 'b' if rng.random() < bottom else 't'
            if rng.random() < reads:
                out.append('r %d %d %s' % (x, g, order))
            else:
                v = 0 if rng.random() < zeros else rng.choice((1, 10, rng.getrandbits(32)))
                out.append('w %d %d %08x %s' % (x, g, v, order))
            given[x] = 0
        else:
            out.append('s %d' % x)
            given[x] += 1
    return '\n'.join(out)


run('long-one-map', '10,000 lines, 4 trackers and 12 lines on 100 leaves: one map block that all of them want', mixed(801, 10000, 100, 12, 4, 1600, 0.5, 0.4, 0.4, 0.01))
run('long-two-maps', '10,000 lines, 8 trackers and 20 lines on 800 leaves: two map blocks', mixed(802, 10000, 800, 20, 8, 12800, 0.5, 0.5, 0.3, 0.005))
run('long-tight', '10,000 lines, 2 trackers and 3 lines on 40 leaves: every placing takes a line from another block', mixed(803, 10000, 40, 3, 2, 640, 0.5, 0.4, 0.4, 0.01))
run('long-bottom', '10,000 lines, 6 trackers and 64 lines on 60 leaves, bottom-up as a rule: most accesses end at Probe', mixed(804, 10000, 60, 64, 6, 960, 0.95, 0.6, 0.3, 0.005))

# ---- a run for each tracker count

for t in range(1, 9):
    run('trackers-%d' % t, '1,500 lines with T = %d, L = %d on 600 leaves' % (t, t + 3), mixed(810 + t, 1500, 600, t + 3, t, 9600, 0.5, 0.5, 0.35, 0.01))


def main():
    if sys.argv[1:] == ['--table']:
        print('| Script | What it shows |\n|---|---|')
        for name, what, _ in RUNS:
            print('| `%s.script` | %s |' % (name, what))
        return
    folder = sys.argv[1] if len(sys.argv) > 1 else 'runs'
    for name, _, lines in RUNS:
        with open(os.path.join(folder, name + '.script'), 'w') as f:
            f.write('\n'.join(lines) + '\n')


main()
