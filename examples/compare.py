#!/usr/bin/env python3
"""Runs two programs on the same scripts and packs, and compares the exit status, what they print, hp.trace and every pack. Zeros at the
end of a file count as missing.

    compare.py [--runs N] [--from SEED] [--kind clean|hard|raw] PROGRAM OTHER

Each seed makes one case. `clean` is a script over good drives. `hard` has tables, marks, noise, faults, retries that are cut off, drives
that go offline or are locked, short blocks and refusals. `raw` is a transfer of bytes (`raw read`, `raw write`), and is made only if it is
asked for. A program may have words of its own, in one argument: "./mine --slow". Of each case that differs it prints the first line that
does, as both programs have it, and keeps the folder with the script and the packs of both.
"""
import argparse, os, random, shlex, shutil, subprocess, sys, tempfile

KINDS = {'rp06': (815, 19, 22), 'rm03': (823, 5, 32), 'rm05': (823, 19, 32)}
CODES = ['+400', '-400', '+800', '-800', '+1200', '-1200']
BAD = ['read 1', 'unit 0 rp06', 'move 4', 'drain 1', 'noise 0 5 1', 'fault 0 opi 0', 'turn 0 32', 'write 999 0 a 0 1 fill 5', '']
SHORT, SHOWN, ALIAS = [0, 7], [0, 7, 14], [0, 9, 11, 21, 30, 32]


class Case:
    """A script that is made, and the packs that it is played over."""

    def __init__(self, seed, kind, folder):
        self.pick, self.folder, self.hard, self.ids = random.Random(seed), folder, kind != 'clean', 0
        units = sorted(self.pick.sample([0, 1, 2, 8, 31], self.pick.randint(1, 3)))
        self.units = {u: self.pick.choice(list(KINDS)) for u in units}
        self.lines = [f'unit {u} {kind}' for u, kind in self.units.items()]
        self.near, self.listed = {}, {}
        for u, kind in self.units.items():
            cylinders, tracks, sectors = KINDS[kind]
            self.near[u] = self.pick.sample(range(3 * tracks * sectors), 8)
            if self.hard and self.pick.random() < 0.7:
                self.make_pack(u, tracks, sectors, cylinders * tracks * sectors)

    def make_pack(self, unit, tracks, sectors, blocks):
        """Writes an image with a table that lists some blocks, and marks."""
        pick, listed = self.pick, sorted(self.pick.sample(self.near[unit], 4))
        self.listed[unit] = listed
        text = pick.randint(0, 2**32 - 1).to_bytes(4, 'little') + bytes(4)
        for block in listed:
            text += (block // (tracks * sectors)).to_bytes(2, 'little') + bytes([block % sectors, block % (tracks * sectors) // sectors])
        text += b'\xff' * (512 - len(text))
        marks = [b for b in listed if pick.random() < 0.8] + [blocks - sectors - 1 - pick.randint(0, 3)] * (pick.random() < 0.3)
        with open(os.path.join(self.folder, f'hp{unit}.dsk'), 'wb') as file:
            for copy in range(pick.randint(0, 2), 5):
                file.seek(512 * (blocks - sectors + 2 * copy))
                file.write(text)
            for index in range(4):
                file.seek(512 * (blocks - sectors - 1 - index))
                file.write(bytes([0x50 + index]) * 512)
        with open(os.path.join(self.folder, f'hp{unit}.bad'), 'wb') as file:
            for block in marks:
                file.seek(block)
                file.write(b'\x01')

    # ---- lines
    def request(self, unit, block, count, part='c', write=None):
        pick = self.pick
        write = pick.random() < 0.5 if write is None else write
        line = f'{"write" if write else "read"} {self.ids} {unit} {part} {block} {count}'
        self.ids += 1
        if write:
            line += pick.choice([f' fill {pick.randint(0, 255):02x}', f' seq {pick.randint(0, 255)}'])
        line += f' off {pick.randint(0, 511)}' if pick.random() < 0.3 else ''
        line += f' last {pick.randint(1, 512)}' if self.hard and pick.random() < 0.3 else ''
        self.lines.append(line)

    def noise(self, unit, block):
        first = self.pick.randint(0, 4000)
        places = [first + p for p in self.pick.choice([SHORT, SHOWN, ALIAS])]
        span = self.pick.choice([str(self.pick.choice([1, 2, 5, 17, 30])), f'until {self.pick.choice(CODES)}'])
        self.lines.append(f'noise {unit} {block} {span} ' + ' '.join(map(str, places)))

    def any_line(self):
        pick, unit = self.pick, self.pick.choice(list(self.units))
        block = max(0, pick.choice(self.near[unit]) - pick.randint(0, 3))
        word = pick.random()
        if word < 0.45:
            if self.hard and pick.random() < 0.05:
                self.request(unit, pick.choice([15883, 15884, 15885, 0]), pick.randint(1, 6), pick.choice('abdefgh'))
            else:
                self.request(unit, block, pick.randint(1, 6), pick.choice('aac'))
        elif word < 0.55:
            self.lines.append(f'arrive {unit}')
        elif word < 0.75:
            self.lines.append(pick.choice(['move', 'attend']) + f' {unit // 8}')
        elif word < 0.80 or not self.hard:
            self.lines.append('drain')
        elif word < 0.86:
            self.noise(unit, pick.choice(self.near[unit]))
        elif word < 0.90:
            self.lines.append(f'fault {unit} {pick.choice(["seek", "opi", "dte", "hcrc", "late"])} {pick.choice([1, 3, 17, 30])}')
        elif word < 0.93:
            self.turn(unit)
        else:
            self.lines.append(f'{pick.choice(["offline", "online", "online", "lock", "unlock", "unlock"])} {unit}')

    def turn(self, unit):
        self.lines.append(f'turn {unit} {self.pick.randint(0, KINDS[self.units[unit]][2] - 1)}')

    # ---- parts of a script that lead to one rule
    def retries(self, unit, block):
        """A request fails again and again; the drive goes offline near the moment at which a retry moves the heads, and comes back."""
        pick = self.pick
        self.lines += ['drain', f'online {unit}', f'unlock {unit}']
        if pick.random() < 0.8:
            first = pick.randint(0, 4000)
            self.lines.append(f'noise {unit} {block} {pick.choice([30, 60])} ' + ' '.join(str(first + p) for p in SHOWN))
            self.request(unit, block, pick.randint(1, 3), write=False)
        elif pick.random() < 0.5:
            for k in range(3):
                self.lines.append(f'noise {unit} {block + k} {pick.choice([1, 3, 14, 16])} 0 7 14')
            self.request(unit, block, 3, write=False)
            self.lines += ['drain'] * (pick.random() < 0.5)
        else:
            self.lines.append(f'fault {unit} opi {pick.choice([17, 21, 28])}')
            self.request(unit, block, pick.randint(1, 3))
        turn = [f'arrive {unit}', f'move {unit // 8}', f'attend {unit // 8}']
        self.lines += turn * pick.choice([3, 5, 6, 17, 18, 19, 20, 21, 22, 23]) + turn[:pick.randint(0, 2)]
        self.lines += [f'offline {unit}'] * (pick.random() < 0.8) + turn[pick.randint(0, 2):] * pick.randint(0, 2) + [f'online {unit}']
        self.request(unit, max(0, block - pick.randint(0, 2)), pick.randint(1, 3))

    def replaced(self, unit):
        """A listed block is used while reads of its replacement fail."""
        k, (cylinders, tracks, sectors) = self.pick.randrange(4), KINDS[self.units[unit]]
        self.lines.append(f'noise {unit} {cylinders * tracks * sectors - sectors - 1 - k} {self.pick.choice([1, 4, 12, 30])} 0 7 14')
        self.request(unit, max(0, self.listed[unit][k] - self.pick.randint(0, 2)), self.pick.randint(1, 4))

    def searched(self, unit, block):
        """A request ends behind its search, before a sector is moved, and the next one is near."""
        self.lines += ['drain', f'online {unit}', f'lock {unit}']
        self.request(unit, block, 1, write=True)
        self.request(unit, block + self.pick.randint(0, 3), 1, write=False)
        self.turn(unit)
        self.lines += ['drain', f'unlock {unit}']

    def layers(self, unit, block):
        """Noise over noise at one block, which is written and read."""
        for _ in range(self.pick.randint(2, 3)):
            self.noise(unit, block)
        for _ in range(self.pick.randint(2, 4)):
            self.request(unit, block, 1)
        self.lines += ['drain'] * (self.pick.random() < 0.5)

    def queue(self, unit):
        """Many requests wait for one arm, some of them on one cylinder; the pack turns in the meantime."""
        blocks = KINDS[self.units[unit]][1] * KINDS[self.units[unit]][2]
        for _ in range(self.pick.randint(4, 9)):
            self.request(unit, self.pick.choice([0, 1, 1, 2, 5, 9]) * blocks + self.pick.randint(0, 40), self.pick.randint(1, 2))
        self.turn(unit)

    def script(self):
        pick = self.pick
        for _ in range(pick.randint(1, 60)):
            unit = pick.choice(list(self.units))
            part = pick.random()
            if part < 0.02:
                self.queue(unit)
            elif part < 0.06 and self.hard:
                self.retries(unit, pick.choice(self.near[unit]))
            elif part < 0.08 and self.hard:
                self.layers(unit, pick.choice(self.near[unit]))
            elif part < 0.10 and self.hard:
                self.searched(unit, pick.choice(self.near[unit]))
            elif part < 0.12 and unit in self.listed:
                self.replaced(unit)
            else:
                self.any_line()
        if self.hard and pick.random() < 0.05:
            self.lines.insert(pick.randint(0, len(self.lines)), pick.choice(BAD))
        with open(os.path.join(self.folder, 'input'), 'w') as file:
            file.write('\n'.join(self.lines) + '\n')
        return ['play']

    def transfer(self):
        pick, unit = self.pick, self.pick.choice(list(self.units))
        at = max(0, 512 * (pick.choice(self.near[unit]) - pick.randint(0, 200)) + pick.choice([0, 0, 1, 511, pick.randint(0, 511)]))
        size = pick.choice([0, 1, 512, pick.randint(1, 2000), pick.randint(1, 200000), 512 * 127, 512 * 300])
        words = ['raw', pick.choice(['read', 'write']), str(unit), self.units[unit], 'c', str(at)]
        with open(os.path.join(self.folder, 'input'), 'wb') as file:
            file.write(pick.randbytes(size) if words[1] == 'write' else b'')
        return words + [str(size)] * (words[1] == 'read')


# ---- what is left
def held(path):
    """What a file holds, by blocks that are not all zeros; holes of a large image are not read."""
    blocks, at = {}, 0
    with open(path, 'rb') as file:
        while True:
            try:
                at = os.lseek(file.fileno(), at, os.SEEK_DATA)
            except OSError:
                return blocks
            end = os.lseek(file.fileno(), at, os.SEEK_HOLE)
            for block in range(at // 512, (end + 511) // 512):
                data = os.pread(file.fileno(), 512, 512 * block).rstrip(b'\0')
                if data:
                    blocks[block] = data
            at = end


def read(path):
    try:
        with open(path, 'rb') as file:
            return file.read()
    except FileNotFoundError:
        return b''


def run(program, words, folder):
    """What a program leaves: its status, what it prints, its trace, and every pack."""
    with open(os.path.join(folder, 'input'), 'rb') as given:
        ran = subprocess.run([*program, *words], stdin=given, stdout=subprocess.PIPE, cwd=folder)
    packs = {it: held(os.path.join(folder, it)) for it in os.listdir(folder) if it.startswith('hp') and it != 'hp.trace'}
    return {'status': ran.returncode, 'text': ran.stdout, 'hp.trace': read(os.path.join(folder, 'hp.trace')),
            'packs': {name: blocks for name, blocks in packs.items() if blocks}}


def shown(line):
    return line[:100].decode('latin-1') + ' ..' * (len(line) > 100) if line is not None else '(no line)'


def first_lines(name, one, other):
    """The first line of two texts that differs, both ways."""
    lines = one.split(b'\n'), other.split(b'\n')
    at = next(i for i in range(max(map(len, lines))) if any(i >= len(it) for it in lines) or lines[0][i] != lines[1][i])
    mine, theirs = (it[at] if at < len(it) else None for it in lines)
    return f'{name}, line {at + 1}:\n    one    {shown(mine)}\n    other  {shown(theirs)}'


def differences(one, other):
    """What differs, a text for each: all that two programs left is looked at."""
    found = []
    if one['status'] != other['status']:
        found.append(f'status: one {one["status"]}, other {other["status"]}')
    found += [first_lines(name, one[name], other[name]) for name in ('text', 'hp.trace') if one[name] != other[name]]
    for name in sorted({*one['packs'], *other['packs']}):
        mine, theirs = one['packs'].get(name, {}), other['packs'].get(name, {})
        blocks = [block for block in sorted({*mine, *theirs}) if mine.get(block) != theirs.get(block)]
        if blocks:
            found.append(f'{name}: {"block" if name.endswith(".dsk") else "marks of blocks from"} {blocks[0] * (1 if name.endswith(".dsk") else 512)} on')
    return found


def compared(seed, kind, programs, top):
    """What differs in the case of a seed, and the folder that has it."""
    folders = [os.path.join(top, str(seed), it) for it in ('one', 'other')]
    os.makedirs(folders[0])
    case = Case(seed, kind, folders[0])
    words = case.transfer() if kind == 'raw' else case.script()
    subprocess.run(['cp', '-r', '--sparse=always', *folders], check=True)
    found = differences(*(run(program, words, folder) for program, folder in zip(programs, folders)))
    if not found:
        shutil.rmtree(os.path.dirname(folders[0]))
    return found, os.path.dirname(folders[0])


def kind_of(seed, kind):
    return kind or ('hard' if seed % 3 else 'clean')


def main():
    words = argparse.ArgumentParser()
    words.add_argument('--runs', type=int, default=1000)
    words.add_argument('--from', dest='first', type=int, default=1)
    words.add_argument('--kind', choices=['clean', 'hard', 'raw'])
    words.add_argument('programs', nargs=2)
    given = words.parse_args()
    programs = [[os.path.abspath(it) if os.path.exists(it) else it for it in shlex.split(program)] for program in given.programs]
    top, same = tempfile.mkdtemp(prefix='compare-'), 0
    for seed in range(given.first, given.first + given.runs):
        found, folder = compared(seed, kind_of(seed, given.kind), programs, top)
        same += not found
        if found:
            print(f'seed {seed} differs: {folder}', *('  ' + it for it in found), sep='\n', flush=True)
    print(f'{same} of {given.runs} runs are the same')
    sys.exit(0 if same == given.runs else 1)


if __name__ == '__main__':
    main()
