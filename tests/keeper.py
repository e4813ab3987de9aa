"""The keeper's tool on files as they come: `python3 tests/keeper.py`, in the root of the repository.

Images are made and damaged here from documents 01 and 02; each line, each status, and what is in the folder afterwards is
compared. Ends with `keeper: N tries`, status 1 on the first difference.
"""
import os, struct, subprocess, sys, tempfile

TOOL = os.path.abspath('archive')
tries = 0


def sealed(front, version=2):
    modulus = 65535 if version == 1 else 65536
    front = front + bytes(508 - len(front))
    a, b = 1, 0
    for word in struct.unpack('<254H', front):
        a = (a + word) % modulus
        b = (b + a) % modulus
    return front + struct.pack('<HH', a, b)


def head(n, m, version=2, number=0, kind=1, after=b''):
    return sealed(struct.pack('<IHHII', number, kind, version, n, m) + after, version)


def block(place, records, version=2, kind=2, count=None, after=b''):
    count = len(records) if count is None else count
    return sealed(struct.pack('<IHH', place, kind, count) + b''.join(struct.pack('<I', k) + b for k, b in records) + after, version)


def leaf(k, byte=1):
    return (k, bytes([byte]) + bytes(63))


def image(n, leaves, version=2):
    blocks = [leaves[i:i + 7] for i in range(0, len(leaves), 7)]
    return head(n, len(leaves), version) + b''.join(block(j + 1, [leaf(k) for k in b], version) for j, b in enumerate(blocks))


def wrong(data, at):
    return data[:at] + bytes([data[at] ^ 1]) + data[at + 1:]


def run(words, folder, out, status, errors=''):
    global tries
    tries += 1
    done = subprocess.run([TOOL, *words], cwd=folder, capture_output=True, text=True)
    if (done.stdout, done.returncode) != (out, status) or (errors is not None and done.stderr != errors):
        print(f'keeper: DIFFERENT: ./archive {" ".join(words)}: status {done.returncode}\n{done.stdout}{done.stderr}not status {status}\n{out}{errors}')
        sys.exit(1)


def put(folder, name, data):
    with open(os.path.join(folder, name), 'wb') as file:
        file.write(data)


def get(folder, name):
    with open(os.path.join(folder, name), 'rb') as file:
        return file.read()


def labels(folder):
    whole = image(20, range(9))
    files = [
        ('sound', whole, 'accepted, version 2, n 20, 9 leaves', 0),
        ('old', image(20, range(9), 1), 'accepted, version 1, n 20, 9 leaves', 0),
        ('head only', image(5, []), 'accepted, version 2, n 5, 0 leaves', 0),
        ('empty', b'', '10, it is empty', 1),
        ('truncated', whole[:1000], '10, its length, 1000, is no multiple of 512', 1),
        ('one byte', b'x', '10, its length, 1, is no multiple of 512', 1),
        ('noise', os.urandom(2048), '10, the check of block 0 is wrong', 1),
        ('zeros', bytes(1024), '10, the check of block 0 is wrong', 1),
        ('check', wrong(whole, 512 + 90), '10, the check of block 1 is wrong', 1),
        ('last check', wrong(whole, 1024 + 511), '10, the check of block 2 is wrong', 1),
        ('stuck', wrong(whole, 6), '10, the check of block 0 is wrong', 1),
        ('number', head(20, 0, number=1), '11, the head: its number is not 0', 1),
        ('kind', head(20, 0, kind=2), '11, the head: its kind is not 1', 1),
        ('version', head(20, 0, version=3), '11, the head: its version is neither 1 nor 2', 1),
        ('n 0', head(0, 0), '11, the head: its n is not from 1 to 262144', 1),
        ('n 262145', head(262145, 0), '11, the head: its n is not from 1 to 262144', 1),
        ('unused', head(20, 0, after=b'\0\1'), '11, the head: its unused bytes are not zero', 1),
        ('m', head(20, 3) + block(1, [leaf(4)]), '11, the head: its m is 3, and there are 1 records', 1),
        ('place', head(20, 1) + block(2, [leaf(4)]), '11, block 1: its number is not its place', 1),
        ('block kind', head(20, 1) + block(1, [leaf(4)], kind=1), '11, block 1: its kind is not 2', 1),
        ('count 0', head(20, 0) + block(1, []), '11, block 1: its count is not from 1 to 7', 1),
        ('count 8', head(20, 8) + block(1, [leaf(4)], count=8), '11, block 1: its count is not from 1 to 7', 1),
        ('count 6', head(20, 7) + block(1, [leaf(k) for k in range(6)]) + block(2, [leaf(9)]), '11, block 1: its count is not 7', 1),
        ('block unused', head(20, 1) + block(1, [leaf(4)], after=b'\1'), '11, block 1: its unused bytes are not zero', 1),
        ('empty leaf', head(20, 2) + block(1, [leaf(4), leaf(5, 0)]), '11, leaf 5 in block 1: empty', 1),
        ('leaf n', head(20, 1) + block(1, [leaf(20)]), '11, leaf 20 in block 1: its number is not below n', 1),
        ('doubled', head(20, 2) + block(1, [leaf(4), leaf(4)]), '11, leaf 4 in block 1: its number is not above the last one kept', 1),
    ]
    for name, data, line, status in files:
        put(folder, name, data)
        run(['label', name], folder, f'{name}: {line}\n', status)
    os.mkdir(os.path.join(folder, 'folder'))
    run(['label', 'folder'], folder, 'folder: not read: it is a directory\n', 2)
    run(['label', 'none'], folder, 'none: not read: No such file or directory\n', 2)
    run(['label', '/dev/null'], folder, '/dev/null: not read: it is no file\n', 2)
    os.mkfifo(os.path.join(folder, 'pipe'))
    run(['label', 'pipe'], folder, 'pipe: not read: it is no file\n', 2)
    if os.getuid() != 0:
        os.chmod(os.path.join(folder, 'sound'), 0)
        run(['label', 'sound'], folder, 'sound: not read: Permission denied\n', 2)
        os.chmod(os.path.join(folder, 'sound'), 0o600)
    # Every file has its line, whatever the others are.
    names = [name for name, _, _, _ in files]
    run(['label', 'none', *names, 'folder'], folder, 'none: not read: No such file or directory\n' + ''.join(f'{name}: {line}\n' for name, _, line, _ in files)
        + 'folder: not read: it is a directory\n', 2)
    # 2 GB without a byte on the disk, and with a sound head.
    with open(os.path.join(folder, 'large'), 'wb') as file:
        file.truncate(2 << 30)
    run(['label', 'large'], folder, 'large: 10, the check of block 0 is wrong\n', 1)


def salvages(folder):
    whole = image(20, range(9))
    put(folder, 'whole', whole)
    before = sorted(os.listdir(folder))

    def salvage(data, lines, new):
        put(folder, 'bad', data)
        leaves, listed = struct.unpack('<I', new[12:16])[0], len(lines)
        n = struct.unpack('<I', new[8:12])[0]
        out = ''.join(line + '\n' for line in lines) + f'new: version 2, n {n}, {leaves} leaves; {listed} listed\n'
        run(['salvage', 'bad', 'new'], folder, out, 3 if listed else 0)
        if get(folder, 'bad') != data or get(folder, 'new') != new or sorted(os.listdir(folder)) != sorted([*before, 'bad', 'new']):
            print(f'keeper: DIFFERENT: what a salvage leaves: {lines}')
            sys.exit(1)
        run(['label', 'new'], folder, f'new: accepted, version 2, n {n}, {leaves} leaves\n', 0)
        os.remove(os.path.join(folder, 'new'))

    salvage(whole, [], whole)
    salvage(image(20, range(9), 1), [], whole)
    salvage(wrong(whole, 512 + 90), ['block 1 not used: its check is wrong'], image(20, [7, 8]))
    salvage(whole[:512] + whole[1024:], ['block 1 not used: its number is not its place'], image(20, []))
    salvage(whole[:1024], [], image(20, range(7)))
    salvage(head(20, 9) + block(1, [leaf(k) for k in [3, 3, 1, 20, 5, 6, 7]]) + block(2, [leaf(7), leaf(8, 0), leaf(9)]), [
        'leaf 3 left out of block 1: its number is not above the last one kept',
        'leaf 1 left out of block 1: its number is not above the last one kept',
        'leaf 20 left out of block 1: its number is not below n',
        'leaf 7 left out of block 2: its number is not above the last one kept',
        'leaf 8 left out of block 2: empty',
    ], image(20, [3, 5, 6, 7, 9]))
    salvage(head(20, 0) + block(1, [leaf(1)]) + block(2, [leaf(2)], kind=1) + block(3, [leaf(3)], after=b'\1') + block(4, [], count=9), [
        'block 1 not used: its count is not 7',
        'block 2 not used: its kind is not 2',
        'block 3 not used: its count is not 7',
        'block 4 not used: its count is not from 1 to 7',
    ], image(20, []))
    # What is refused, and what cannot be done: nothing is written.
    put(folder, 'new', b'kept')
    put(folder, 'bad', whole[:1000])

    def nothing(words, out, status, errors):
        run(['salvage', *words], folder, out, status, errors)
        if get(folder, 'bad') != whole[:1000] or get(folder, 'new') != b'kept' or sorted(os.listdir(folder)) != sorted([*before, 'bad', 'new']):
            print(f'keeper: DIFFERENT: something is written: {words}')
            sys.exit(1)

    nothing(['bad', 'other'], 'bad: 10, its length, 1000, is no multiple of 512\n', 1, '')
    nothing(['--replace', 'bad', 'new'], 'bad: 10, its length, 1000, is no multiple of 512\n', 1, '')
    nothing(['noise', 'other'], 'noise: 10, the check of block 0 is wrong\n', 1, '')
    nothing(['version', 'other'], 'version: 11, the head: its version is neither 1 nor 2\n', 1, '')
    nothing(['empty', 'other'], 'empty: 10, it is empty\n', 1, '')
    nothing(['whole', 'new'], '', 2, 'archive: new: it is there already (--replace takes its place); nothing is written\n')
    nothing(['--replace', 'whole', 'whole'], '', 2, 'archive: whole: it is OLD itself; nothing is written\n')
    nothing(['--replace', 'whole', 'folder'], '', 2, 'archive: folder: it is a directory; nothing is written\n')
    nothing(['whole', 'none/new'], '', 2, 'archive: none/new: No such file or directory; nothing is written\n')
    nothing(['none', 'other'], '', 2, 'archive: none: No such file or directory; nothing is written\n')
    nothing(['folder', 'other'], '', 2, 'archive: folder: it is a directory; nothing is written\n')
    run(['salvage', '--replace', 'whole', 'new'], folder, 'new: version 2, n 20, 9 leaves; 0 listed\n', 0)
    if get(folder, 'new') != whole:
        print('keeper: DIFFERENT: --replace')
        sys.exit(1)


# The first run builds what is missing.
subprocess.run([TOOL, '--help'], check=True, stdout=subprocess.DEVNULL)
with tempfile.TemporaryDirectory() as folder:
    labels(folder)
    salvages(folder)
    for words in [[], ['label'], ['salvage', 'a'], ['salvage', 'a', 'b', 'c'], ['other']]:
        run(words, folder, '', 2, None)
print(f'keeper: {tries} tries')
